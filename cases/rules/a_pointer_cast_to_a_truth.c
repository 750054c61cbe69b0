void main() {
    int* p;
    (bool) p; // error 42
}
