void main() {
    (int) NULL; // error 42
}
