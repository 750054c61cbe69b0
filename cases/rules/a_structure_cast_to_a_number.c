struct S { int a; };

void main() {
    S s;
    (int) s; // error 42
}
