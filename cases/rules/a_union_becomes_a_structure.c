struct S { int a; };
union U { int a; S s; };

void main() {
    S s;
    U u;
    s = u; // error 42
}
