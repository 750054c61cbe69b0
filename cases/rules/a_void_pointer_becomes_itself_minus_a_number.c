void main() {
    void* p;
    p -= 1; // error 42
}
