void main() {
    int; // error 30
}
