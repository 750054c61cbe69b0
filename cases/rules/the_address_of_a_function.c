int f() {
    return 1;
}

void main() {
    int* p = &f; // error 42
}
