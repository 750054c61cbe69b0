void main() {
    if (1)
        x; // error 40
}
