void main() {
    int a;
    int* p;
    a <<= p; // error 42
}
