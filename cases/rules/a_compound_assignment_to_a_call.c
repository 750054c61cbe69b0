int f() {
    return 1;
}

void main() {
    f() -= 2; // error 43
}
