void main() {
    int[2] v;
    v | 1; // error 42
}
