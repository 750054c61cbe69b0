void main() {
    int a = halt(); // error 42
}
