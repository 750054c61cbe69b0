void main() {
    int a, b;
    a = 1 + b = 2; // error 30
}
