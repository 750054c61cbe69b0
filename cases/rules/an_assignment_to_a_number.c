void main() {
    1 = 1; // error 43
}
