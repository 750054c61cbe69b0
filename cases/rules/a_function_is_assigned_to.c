int f() {
    return 1;
}

void main() {
    f = 1; // error 42
}
