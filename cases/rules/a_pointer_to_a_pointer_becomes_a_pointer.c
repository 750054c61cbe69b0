void main() {
    int* p;
    int** pp;
    p = pp; // error 42
}
