struct S { int a; };

void main() {
    S* sp;
    (S) sp; // error 42
}
