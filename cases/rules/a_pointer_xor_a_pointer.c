void main() {
    int* p;
    p ^ p; // error 42
}
