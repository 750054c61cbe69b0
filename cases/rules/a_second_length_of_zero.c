void main() {
    int[2][0] a; // error 42
}
