void main() {
    int[3 - 3] a; // error 42
}
