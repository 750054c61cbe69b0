void main() {
    int a;
    int[1000001] a; // error 41
}
