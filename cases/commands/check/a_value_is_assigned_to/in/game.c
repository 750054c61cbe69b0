void main() {
    1 = 2;
}
