void main() {
    int n;
    n = NULL; // error 42
}
