void main() {
    1 = NULL; // error 42
}
