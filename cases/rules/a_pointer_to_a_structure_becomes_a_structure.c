struct S { int a; };

void main() {
    S s;
    S* sp;
    s = sp; // error 42
}
