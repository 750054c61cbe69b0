struct S { int a; };
void take(int a) { }

void main() {
    S s;
    take(s); // error 42
}
