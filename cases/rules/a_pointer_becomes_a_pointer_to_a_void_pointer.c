void main() {
    void** ww;
    int* p;
    ww = p; // error 42
}
