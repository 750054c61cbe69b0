void f(int a, int b) { }

void main() {
    f(); // error 44
}
