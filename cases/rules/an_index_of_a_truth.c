void main() {
    bool a;
    a[0]; // error 42
}
