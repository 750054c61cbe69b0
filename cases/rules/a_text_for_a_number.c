void main() {
    int a = "abc"; // error 42
}
