struct S { int a; };

void main() {
    int n;
    S a = n; // error 42
}
