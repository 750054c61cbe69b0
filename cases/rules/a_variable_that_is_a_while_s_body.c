void main() {
    int a;
    while (0)
        int a; // error 41
}
