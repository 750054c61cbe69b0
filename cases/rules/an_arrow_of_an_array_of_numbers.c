void main() {
    int[2] v;
    v->a; // error 42
}
