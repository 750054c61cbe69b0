void main() {
    int n;
    int* p;
    n = p; // error 42
}
