void main() {
    int[2] a = { 1, b }; // error 40
}
