void f(int a, int b) { }

void main() {
    f(NULL); // error 42
}
