void main() {
    y // error 40
        [*1];
}
