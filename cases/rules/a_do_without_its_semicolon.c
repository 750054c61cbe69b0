void main() {
    do ; while (1)
    int a; // error 30
}
