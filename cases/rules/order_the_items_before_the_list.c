void main() {
    int[1] a = {
        1,
        2,
        y // error 40
    };
}
