void main() {
    int n;
    (int[2]) n; // error 42
}
