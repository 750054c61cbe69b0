void main() {
    int* p;
    p < 0; // error 42
}
