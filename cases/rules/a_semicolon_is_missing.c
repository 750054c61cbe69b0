void main() {
    int a
    int b; // error 30
}
