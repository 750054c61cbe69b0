void main() {
    NULL = NULL; // error 43
}
