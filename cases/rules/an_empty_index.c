void main() {
    int[2] a;
    a[] = 1; // error 30
}
