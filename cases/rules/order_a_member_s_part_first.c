void main() {
    y.a; // error 40
}
