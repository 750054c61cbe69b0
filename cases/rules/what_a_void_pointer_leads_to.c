void main() {
    void* p;
    *p; // error 42
}
