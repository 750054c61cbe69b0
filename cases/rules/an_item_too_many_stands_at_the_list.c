void main() {
    int[2] a = { // error 42
        1,
        2,
        3
    };
}
