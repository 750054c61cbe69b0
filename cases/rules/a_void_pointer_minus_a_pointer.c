void main() {
    int* p;
    void* q;
    q - p; // error 42
}
