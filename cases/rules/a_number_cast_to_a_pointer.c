void main() {
    int n;
    (int*) n; // error 42
}
