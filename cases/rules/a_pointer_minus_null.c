void main() {
    int* p;
    p - NULL; // error 42
}
