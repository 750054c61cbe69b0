void main() {
    int* p;
    bool b;
    p = b; // error 42
}
