void main() {
    (int) halt(); // error 42
}
