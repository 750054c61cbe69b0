void f(int a) {
    a(); // error 42
}

void main() { }
