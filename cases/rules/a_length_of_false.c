void main() {
    int[false] a; // error 42
}
