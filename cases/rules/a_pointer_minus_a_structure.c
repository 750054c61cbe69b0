struct S { int a; };

void main() {
    S s;
    S* p;
    p - s; // error 42
}
