void main() {
    void[3] a; // error 30
}
