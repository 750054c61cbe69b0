void main() {
    int n = 3;
    int[2][n] a; // error 48
}
