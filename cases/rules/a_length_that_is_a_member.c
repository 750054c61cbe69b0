struct S { int a; };

void main() {
    S s;
    int[s.a] a; // error 48
}
