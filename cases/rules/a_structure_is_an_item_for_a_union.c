struct S { int a; };
union U { int a; S s; };
struct W { U a; };

void main() {
    S s;
    W a = { s }; // error 42
}
