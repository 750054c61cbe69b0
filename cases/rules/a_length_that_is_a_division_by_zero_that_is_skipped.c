void main() {
    int[0 && 1 / 0] a; // error 48
}
