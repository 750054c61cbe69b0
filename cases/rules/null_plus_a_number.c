void main() {
    NULL + 1; // error 42
}
