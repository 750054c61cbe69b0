struct S { int a; };

void main() {
    S[2] v;
    v.a; // error 42
}
