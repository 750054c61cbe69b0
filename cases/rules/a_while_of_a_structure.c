struct S { int a; };

void main() {
    S s;
    while (s) ; // error 42
}
