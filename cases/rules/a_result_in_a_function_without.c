void f() {
    return 1; // error 42
}

void main() { }
