void main() {
    if (y) // error 40
        1 = 2;
}
