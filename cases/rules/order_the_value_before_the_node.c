void main() {
    1
        = *2; // error 42
}
