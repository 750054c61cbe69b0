struct S { int a; };

void main() {
    S* sp;
    S s;
    sp = s; // error 42
}
