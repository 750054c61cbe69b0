void main() {
    void* p;
    p->a; // error 42
}
