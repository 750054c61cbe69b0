struct S { int a; };

void main() {
    int n;
    S s;
    n = s; // error 42
}
