void main() {
    ++1; // error 43
}
