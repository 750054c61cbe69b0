void main() {
    int a = sizeof(int[x]); // error 40
}
