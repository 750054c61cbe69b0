struct S { int a; };
union U { int a; S s; };
void take(U a) { }

void main() {
    S s;
    take(s); // error 42
}
