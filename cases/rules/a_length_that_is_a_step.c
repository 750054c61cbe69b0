void main() {
    int n;
    int[++n] a; // error 48
}
