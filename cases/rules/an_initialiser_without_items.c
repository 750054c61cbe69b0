void main() {
    int[2] a = { }; // error 30
}
