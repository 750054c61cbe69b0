void main() {
    if (1)
        int a;
    else
        int a; // error 41
}
