void main() {
    int a = sizeof(int[4194305]); // error 50
}
