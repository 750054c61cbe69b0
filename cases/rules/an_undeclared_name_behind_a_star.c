void main() {
    *x; // error 40
}
