void main() {
    int["abc"[0]] a; // error 48
}
