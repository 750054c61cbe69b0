void main() {
    int b;
    int[b = 3] a; // error 30
}
