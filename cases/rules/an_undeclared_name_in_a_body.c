void main() {
    while (1)
        x; // error 40
}
