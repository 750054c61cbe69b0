void f(int a, int b) { }

void main() {
    f(
        y, // error 40
        *1
    );
}
