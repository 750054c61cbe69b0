void f(int a);

void main() {
    f(NULL); // error 42
}
