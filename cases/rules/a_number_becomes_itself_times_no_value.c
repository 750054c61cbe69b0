void main() {
    int a;
    a *= halt(); // error 42
}
