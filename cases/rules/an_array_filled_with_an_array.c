void main() {
    int[2] b;
    int[2] a = b; // error 42
}
