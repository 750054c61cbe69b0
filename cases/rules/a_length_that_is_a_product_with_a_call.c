int f() {
    return 3;
}

void main() {
    int[2 * f()] a; // error 48
}
