void main() {
    int a;
    int b = sizeof(a); // error 30
}
