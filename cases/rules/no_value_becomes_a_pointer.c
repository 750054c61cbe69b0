void main() {
    int* p;
    p = halt(); // error 42
}
