void f(int a) { }

void main() {
    f(NULL, 1); // error 42
}
