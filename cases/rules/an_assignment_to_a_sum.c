void main() {
    int a, b;
    a + b = 1; // error 30
}
