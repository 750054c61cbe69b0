void main() {
    int a;
    a[0]; // error 42
}
