void main() {
    int* p;
    p->a; // error 42
}
