void main() {
    int a = 1 ? 2 : 3; // error 30
}
