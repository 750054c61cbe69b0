struct S { int a; };
S f() {
    S s;
    return s;
}
int a = f(); // error 42

void main() { }
