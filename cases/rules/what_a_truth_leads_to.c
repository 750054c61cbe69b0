void main() {
    bool a;
    *a; // error 42
}
