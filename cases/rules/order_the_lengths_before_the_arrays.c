void main() {
    int[0]
        [y] a; // error 40
}
