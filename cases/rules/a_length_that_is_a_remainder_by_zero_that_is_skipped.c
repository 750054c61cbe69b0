void main() {
    int[1 || 1 % 0] a; // error 48
}
