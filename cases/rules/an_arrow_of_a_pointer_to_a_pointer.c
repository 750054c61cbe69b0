struct S { int a; };

void main() {
    S** p;
    p->a; // error 42
}
