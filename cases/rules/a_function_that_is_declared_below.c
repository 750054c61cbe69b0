void main() {
    f(); // error 40
}

void f() { }
