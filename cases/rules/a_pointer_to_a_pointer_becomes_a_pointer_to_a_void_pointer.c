void main() {
    void** ww;
    int** pp;
    ww = pp; // error 42
}
