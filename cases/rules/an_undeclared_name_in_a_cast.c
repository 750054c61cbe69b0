void main() {
    (int) x; // error 40
}
