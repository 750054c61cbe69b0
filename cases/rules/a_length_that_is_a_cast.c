void main() {
    int[(int) 3] a; // error 48
}
