void main() {
    bool* q;
    int* a = q; // error 42
}
