struct S { int a; };

void main() {
    S s;
    if (s) ; // error 42
}
