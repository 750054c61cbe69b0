void main() {
    int[2] a = {
        y, // error 40
        *1
    };
}
