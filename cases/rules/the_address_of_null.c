void main() {
    &NULL; // error 43
}
