struct S { int a; };

void main() {
    S s;
    s.a.a; // error 42
}
