struct S { int[2] v; };

void main() {
    S s, t;
    s.v = t.v; // error 42
}
