void main() {
    return
        y; // error 40
}
