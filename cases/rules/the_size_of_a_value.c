void main() {
    int a = sizeof 1; // error 30
}
