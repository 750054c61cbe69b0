void f() { }

void main() {
    int f;
    {
        f(); // error 42
    }
}
