struct S { int a; };
union U { int a; S s; };

void main() {
    U u;
    int n;
    u = n; // error 42
}
