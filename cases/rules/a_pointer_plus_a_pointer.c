void main() {
    int* p, q;
    p + q; // error 42
}
