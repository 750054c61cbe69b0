void main() {
    int* p;
    p / 1; // error 42
}
