struct S { int a; };

void main() {
    S a;
    S[1] b = { a, a }; // error 42
}
