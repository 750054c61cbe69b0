void main() {
    int[2] v;
    int n;
    v = n; // error 42
}
