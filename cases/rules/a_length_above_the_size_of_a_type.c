void main() {
    int[4194305]* a; // error 50
}
