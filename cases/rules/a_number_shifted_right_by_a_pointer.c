void main() {
    int* p;
    1 >> p; // error 42
}
