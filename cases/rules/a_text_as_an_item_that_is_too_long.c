void main() {
    int[2][3] a = { "ab", "abc" }; // error 42
}
