struct S { int a; };
S s() {
    S t;
    return t;
}

void main() {
    s().a = 1; // error 43
}
