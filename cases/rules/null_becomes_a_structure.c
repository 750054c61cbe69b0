struct S { int a; };

void main() {
    S s;
    s = NULL; // error 42
}
