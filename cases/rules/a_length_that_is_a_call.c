int f() {
    return 3;
}

void main() {
    int[f()] a; // error 48
}
