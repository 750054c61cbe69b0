void main() {
    int[2] v;
    v = v; // error 42
}
