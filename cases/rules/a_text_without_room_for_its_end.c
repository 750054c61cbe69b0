void main() {
    int[3] a = "abc"; // error 42
}
