struct S { int a; int[2] v; };
S f() {
    S s;
    return s;
}

void main() {
    S s, t;
    (s = t).v; // error 43
}
