void f() { }

void main() {
    f(1); // error 44
}
