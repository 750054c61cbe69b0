struct S { int a; };

void main() {
    S s;
    s = halt(); // error 42
}
