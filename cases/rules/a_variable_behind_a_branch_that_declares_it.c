void main() {
    if (1)
        int a;
    int a; // error 41
}
