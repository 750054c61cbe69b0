struct S { int a; };
struct T { int a; };

void main() {
    S* p;
    T* q;
    p == q; // error 42
}
