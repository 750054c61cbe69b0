void main() {
    x = 1; // error 40
    int x;
}
