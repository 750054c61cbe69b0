void main() {
    int[0]
        [-1] a; // error 50
}
