void main() {
    int* p;
    void* q;
    p - q; // error 42
}
