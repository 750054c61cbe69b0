void main() {
    int a = (1 + 2; // error 30
}
