struct S { int a; };
S s() {
    S t;
    return t;
}

void main() {
    &s().a; // error 43
}
