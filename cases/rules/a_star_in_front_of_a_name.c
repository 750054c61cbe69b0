void main() {
    int a, *b; // error 30
}
