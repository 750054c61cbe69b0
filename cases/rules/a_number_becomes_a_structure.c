struct S { int a; };

void main() {
    S s;
    int n;
    s = n; // error 42
}
