void main() {
    int** pp;
    void** ww;
    pp = ww; // error 42
}
