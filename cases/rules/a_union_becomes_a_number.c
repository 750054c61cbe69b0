struct S { int a; };
union U { int a; S s; };

void main() {
    int n;
    U u;
    n = u; // error 42
}
