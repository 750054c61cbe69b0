void main() {
    int[2] a;
    a = { 1, 2 }; // error 30
}
