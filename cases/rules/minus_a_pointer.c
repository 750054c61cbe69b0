void main() {
    int* p;
    -p; // error 42
}
