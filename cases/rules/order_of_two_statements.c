void main() {
    y = 1; // error 40
    1 = 2;
}
