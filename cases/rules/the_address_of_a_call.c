int f() {
    return 1;
}

void main() {
    &f(); // error 43
}
