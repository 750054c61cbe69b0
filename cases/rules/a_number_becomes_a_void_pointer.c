void main() {
    void* w;
    int n;
    w = n; // error 42
}
