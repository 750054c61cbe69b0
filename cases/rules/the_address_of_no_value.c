void main() {
    &halt(); // error 43
}
