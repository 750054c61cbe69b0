void f(void) { }

void main() {
    f(1); // error 44
}
