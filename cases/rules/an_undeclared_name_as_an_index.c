void main() {
    int[2] a;
    a[x]; // error 40
}
