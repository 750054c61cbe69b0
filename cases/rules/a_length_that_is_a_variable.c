void main() {
    int n = 3;
    int[n] a; // error 48
}
