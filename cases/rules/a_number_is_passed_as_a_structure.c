struct S { int a; };
void take(S a) { }

void main() {
    int n;
    take(n); // error 42
}
