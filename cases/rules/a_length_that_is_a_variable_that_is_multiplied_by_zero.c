void main() {
    int n;
    int[0 * n + 3] a; // error 48
}
