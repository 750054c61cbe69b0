void main() {
    int[0x80000000] a; // error 50
}
