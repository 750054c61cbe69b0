struct S { int a; };

void main() {
    int n;
    (S) n; // error 42
}
