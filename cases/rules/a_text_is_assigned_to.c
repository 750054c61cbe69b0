void main() {
    "abc" = "abc"; // error 42
}
