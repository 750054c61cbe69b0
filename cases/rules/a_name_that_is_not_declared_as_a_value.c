void main() {
    int a = 1 + x; // error 40
}
