void main() {
    int a[3]; // error 30
}
