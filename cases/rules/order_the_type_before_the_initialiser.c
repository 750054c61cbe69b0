void main() {
    int[0] // error 42
        a =
        y;
}
