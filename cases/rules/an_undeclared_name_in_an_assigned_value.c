void main() {
    int a;
    a = x; // error 40
}
