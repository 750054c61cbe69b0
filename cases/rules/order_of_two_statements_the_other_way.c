void main() {
    1 = 2; // error 43
    y = 1;
}
