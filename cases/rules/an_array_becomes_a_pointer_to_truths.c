void main() {
    bool* q;
    int[2] v;
    q = v; // error 42
}
