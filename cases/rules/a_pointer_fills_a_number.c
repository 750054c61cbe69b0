void main() {
    int* p;
    int a = p; // error 42
}
