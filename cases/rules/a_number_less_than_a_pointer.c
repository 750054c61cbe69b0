void main() {
    int* p;
    0 < p; // error 42
}
