void main() {
    int[2] v;
    (int) v; // error 42
}
