void main() {
    void f() { } // error 30
}
