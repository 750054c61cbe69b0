void main() {
    int[1000000] a;
    int b; // error 50
}
