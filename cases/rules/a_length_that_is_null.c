void main() {
    int[NULL] a; // error 48
}
