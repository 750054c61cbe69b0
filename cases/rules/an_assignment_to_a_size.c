void main() {
    sizeof(int) = 1; // error 43
}
