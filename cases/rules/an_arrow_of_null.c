void main() {
    NULL->a; // error 42
}
