void main() {
    int[2] v;
    -v; // error 42
}
