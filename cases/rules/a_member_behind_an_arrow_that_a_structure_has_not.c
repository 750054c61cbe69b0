struct S { int a; };

void main() {
    S s;
    S* p = &s;
    p->b = 1; // error 40
}
