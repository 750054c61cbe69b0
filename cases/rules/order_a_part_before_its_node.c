void main() {
    1 = y; // error 40
}
