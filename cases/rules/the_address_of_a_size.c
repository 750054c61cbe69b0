void main() {
    &sizeof(int); // error 43
}
