void main() {
    bool n = 3;
    int[n] a; // error 48
}
