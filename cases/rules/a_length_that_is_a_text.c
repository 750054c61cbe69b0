void main() {
    int["abc"] a; // error 48
}
