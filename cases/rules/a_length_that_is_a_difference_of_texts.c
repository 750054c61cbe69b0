void main() {
    int["ab" - "ab"] a; // error 48
}
