void main() {
    int[2] a = "abc"; // error 42
}
