void main() {
    int n = 3;
    (int[n]*) NULL; // error 48
}
