void main() {
    void** p;
    int** q;
    p == q; // error 42
}
