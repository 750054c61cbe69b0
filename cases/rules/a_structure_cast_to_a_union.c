struct S { int a; };
union U { int a; S s; };

void main() {
    S s;
    (U) s; // error 42
}
