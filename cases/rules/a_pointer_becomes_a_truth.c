void main() {
    bool b;
    int* p;
    b = p; // error 42
}
