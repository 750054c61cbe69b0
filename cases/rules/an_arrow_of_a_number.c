void main() {
    int b;
    b->a; // error 42
}
