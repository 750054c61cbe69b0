void main() {
    int[500001] a,
        b; // error 50
}
