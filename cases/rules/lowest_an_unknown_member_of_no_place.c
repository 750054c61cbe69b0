struct S { int[2] a; };
S f() {
    S s;
    return s;
}

void main() {
    f().b; // error 40
}
