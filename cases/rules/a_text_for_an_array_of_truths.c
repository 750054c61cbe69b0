void main() {
    bool[4] a = "abc"; // error 42
}
