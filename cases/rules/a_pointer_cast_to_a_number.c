void main() {
    int* p;
    (int) p; // error 42
}
