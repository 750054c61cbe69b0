void main() {
    void* w;
    w = halt(); // error 42
}
