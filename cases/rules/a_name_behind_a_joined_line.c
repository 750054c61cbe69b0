void main() {
    int a = 1 + \
        2 +
        x; // error 40
}
