void main() {
    int a;
    (a + a) = 1; // error 43
}
