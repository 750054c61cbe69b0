void main() {
    int[2] a;
    a[0 = 1; // error 30
}
