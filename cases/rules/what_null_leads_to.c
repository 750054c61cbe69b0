void main() {
    *NULL; // error 42
}
