void main() {
    int n;
    void* w;
    n = w; // error 42
}
