void main() {
    int a;
    if (1)
        int a; // error 41
}
