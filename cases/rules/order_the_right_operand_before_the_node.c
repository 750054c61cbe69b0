void main() {
    NULL
        + y; // error 40
}
