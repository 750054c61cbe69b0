void main() {
    return 0; // error 42
}
