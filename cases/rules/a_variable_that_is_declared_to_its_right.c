void main() {
    int a = b, b = 1; // error 40
}
