void main() {
    bool a = { 1 }; // error 42
}
