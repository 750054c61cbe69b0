struct S { int a; int[2] v; };
S f() {
    S s;
    return s;
}

void main() {
    f().v[0]; // error 43
}
