struct S { int[2] v; };
S f() {
    S s;
    return s;
}

void main() {
    &f().v; // error 43
}
