struct S { int a; };

void main() {
    S s;
    int[2] v;
    s = v; // error 42
}
