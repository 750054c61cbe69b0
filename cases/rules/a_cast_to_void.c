void main() {
    int a;
    (void) a; // error 30
}
