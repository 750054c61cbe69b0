void main() {
    int* p;
    (int[2]) p; // error 42
}
