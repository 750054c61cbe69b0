struct S { int a; };

void main() {
    S s;
    s.b = 1; // error 40
}
