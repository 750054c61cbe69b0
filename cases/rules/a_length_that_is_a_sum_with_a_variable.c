void main() {
    int n;
    int[1 + n] a; // error 48
}
