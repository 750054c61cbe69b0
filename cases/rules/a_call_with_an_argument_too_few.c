void f(int a, int b) { }

void main() {
    f(1); // error 44
}
