void main() {
    int n;
    n = "a"; // error 42
}
