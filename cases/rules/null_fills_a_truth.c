void main() {
    bool a = NULL; // error 42
}
