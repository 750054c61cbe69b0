void main() {
    void a; // error 30
}
