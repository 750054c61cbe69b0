void main() {
    int a;
    bool a; // error 41
}
