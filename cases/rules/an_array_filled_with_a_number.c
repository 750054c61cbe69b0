void main() {
    int[2] a = 1; // error 42
}
