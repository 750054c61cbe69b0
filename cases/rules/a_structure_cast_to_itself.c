struct S { int a; };

void main() {
    S s;
    (S) s; // error 42
}
