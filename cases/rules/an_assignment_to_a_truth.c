void main() {
    true = 1; // error 43
}
