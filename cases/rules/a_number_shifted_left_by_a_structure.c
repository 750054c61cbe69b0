struct S { int a; };

void main() {
    S s;
    1 << s; // error 42
}
