void main() {
    x = 1; // error 40
}
