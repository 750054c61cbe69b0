void main() {
    int* p;
    int** q;
    p == q; // error 42
}
