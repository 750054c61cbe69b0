void main() {
    int[2] v;
    (int[2]) v; // error 42
}
