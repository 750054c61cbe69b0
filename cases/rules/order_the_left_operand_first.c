void main() {
    NULL + NULL + // error 42
        y;
}
