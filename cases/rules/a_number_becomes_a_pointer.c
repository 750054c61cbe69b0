void main() {
    int* p;
    int n;
    p = n; // error 42
}
