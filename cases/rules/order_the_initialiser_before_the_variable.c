void main() {
    int a;
    int a =
        y; // error 40
}
