void main() {
    int[0] a; // error 42
}
