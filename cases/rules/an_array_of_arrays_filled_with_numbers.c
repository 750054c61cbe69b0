void main() {
    int[2][2] a = { 1, 2 }; // error 42
}
