void main() {
    int[2][2] v;
    int* p;
    v == p; // error 42
}
