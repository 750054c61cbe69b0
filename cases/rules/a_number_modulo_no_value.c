void main() {
    1 % halt(); // error 42
}
