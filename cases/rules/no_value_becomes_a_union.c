struct S { int a; };
union U { int a; S s; };

void main() {
    U u;
    u = halt(); // error 42
}
