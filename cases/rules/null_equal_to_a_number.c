void main() {
    NULL == 0; // error 42
}
