void main() {
    int a = (int); // error 30
}
