void main() {
    int a;
    (int) a = 1; // error 43
}
