void main() {
    void* p;
    p - p; // error 42
}
