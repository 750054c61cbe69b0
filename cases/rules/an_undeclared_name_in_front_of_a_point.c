void main() {
    x.a; // error 40
}
