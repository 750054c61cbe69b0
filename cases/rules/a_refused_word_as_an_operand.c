void main() {
    int a = 1 + signed; // error 32
}
