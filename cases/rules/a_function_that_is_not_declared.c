void main() {
    f(); // error 40
}
