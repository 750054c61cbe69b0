void main() {
    int[2] v;
    v = NULL; // error 42
}
