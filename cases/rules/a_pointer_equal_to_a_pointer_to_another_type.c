void main() {
    int* p;
    bool* q;
    p == q; // error 42
}
