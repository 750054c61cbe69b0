struct S { int a; };
union U { int a; S s; };

void main() {
    U u;
    S s;
    u = s; // error 42
}
