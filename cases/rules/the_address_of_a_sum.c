void main() {
    int a;
    &(a + a); // error 43
}
