void f(int a, int b) { }

void main() {
    f(1, 2, 3); // error 44
}
