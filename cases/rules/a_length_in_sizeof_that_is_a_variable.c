void main() {
    int n = 3;
    n = sizeof(int[n]); // error 48
}
