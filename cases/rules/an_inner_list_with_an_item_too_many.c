void main() {
    int[2][2] a = { { 1, 2 }, { 3, 4, 5 } }; // error 42
}
