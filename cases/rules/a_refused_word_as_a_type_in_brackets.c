void main() {
    int a = sizeof(char); // error 32
}
