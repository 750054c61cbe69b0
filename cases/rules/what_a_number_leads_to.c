void main() {
    int a;
    *a; // error 42
}
