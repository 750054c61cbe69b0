void main() {
    int a;
    a // error 30
