void f(int a) { }

void main() {
    f(
        NULL,
        2,
        y // error 40
    );
}
