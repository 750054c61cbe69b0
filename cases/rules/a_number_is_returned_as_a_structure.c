struct S { int a; };
S give() {
    int n;
    return n; // error 42
}

void main() { }
