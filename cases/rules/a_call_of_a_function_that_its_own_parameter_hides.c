void f(int f) {
    f(1); // error 42
}

void main() { }
