void main() {
    void* p;
    p[0]; // error 42
}
