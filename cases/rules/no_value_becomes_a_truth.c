void main() {
    bool b;
    b = halt(); // error 42
}
