struct S { int a; };

void main() {
    S s;
    s == 0; // error 42
}
