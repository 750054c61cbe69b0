void main() {
    1 + x; // error 40
}
