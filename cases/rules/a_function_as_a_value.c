int f() {
    return 1;
}

void main() {
    int a = f; // error 42
}
