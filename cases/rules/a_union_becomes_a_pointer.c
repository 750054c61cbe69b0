struct S { int a; };
union U { int a; S s; };

void main() {
    int* p;
    U u;
    p = u; // error 42
}
