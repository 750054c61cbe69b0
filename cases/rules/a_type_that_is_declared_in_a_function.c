void main() {
    typedef int T; // error 30
}
