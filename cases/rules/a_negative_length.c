void main() {
    int[-1] a; // error 50
}
