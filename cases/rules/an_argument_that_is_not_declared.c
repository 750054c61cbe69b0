void f(int a) { }

void main() {
    f(x); // error 40
}
