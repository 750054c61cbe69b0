struct S { int a, b; };

void main() {
    S[2097153]* a; // error 50
}
