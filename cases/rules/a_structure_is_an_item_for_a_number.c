struct S { int a; };
struct W { int a; };

void main() {
    S s;
    W a = { s }; // error 42
}
