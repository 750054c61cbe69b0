void main() {
    int[NULL] // error 48
        [y] a;
}
