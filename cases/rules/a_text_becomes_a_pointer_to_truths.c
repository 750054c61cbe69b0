void main() {
    bool* q;
    q = "a"; // error 42
}
