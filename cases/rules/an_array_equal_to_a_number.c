void main() {
    int[2] v;
    v == 0; // error 42
}
