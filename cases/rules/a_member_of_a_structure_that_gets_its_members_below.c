struct S;
int f(S* p) {
    return p->a; // error 40
}
struct S { int a; };

void main() { }
