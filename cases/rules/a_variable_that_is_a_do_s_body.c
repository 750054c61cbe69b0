void main() {
    int a;
    do
        int a; // error 41
    while (0);
}
