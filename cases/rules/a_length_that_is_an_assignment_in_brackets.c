void main() {
    int n;
    int[(n = 3)] a; // error 48
}
