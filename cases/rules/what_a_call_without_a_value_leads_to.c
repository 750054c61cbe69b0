void main() {
    *halt(); // error 42
}
