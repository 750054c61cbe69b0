void main() {
    int a = x; // error 40
}
