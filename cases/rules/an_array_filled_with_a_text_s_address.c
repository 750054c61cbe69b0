void main() {
    int[4] a = &"abc"; // error 42
}
