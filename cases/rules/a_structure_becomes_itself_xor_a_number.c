struct S { int a; };

void main() {
    S s;
    s ^= 1; // error 42
}
