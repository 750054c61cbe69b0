struct S { int a; };

void main() {
    S s;
    s.a(); // error 30
}
