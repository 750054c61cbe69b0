void main() {
    int n;
    n = halt(); // error 42
}
