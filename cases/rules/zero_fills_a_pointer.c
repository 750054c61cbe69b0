void main() {
    int* a = 0; // error 42
}
