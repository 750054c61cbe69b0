void f() {
    return f(); // error 42
}

void main() { }
