void f() { }

void main() {
    f; // error 42
}
