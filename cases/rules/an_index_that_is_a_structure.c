struct S { int a; };

void main() {
    int[2] v;
    S s;
    v[s]; // error 42
}
