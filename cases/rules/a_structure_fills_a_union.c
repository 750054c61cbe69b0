struct S { int a; };
union U { int a; S s; };

void main() {
    S s;
    U a = s; // error 42
}
