struct S { int a; };
S s() {
    S t;
    return t;
}

void main() {
    S t;
    s() = t; // error 43
}
