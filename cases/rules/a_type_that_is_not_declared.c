void main() {
    S s; // error 30
}
