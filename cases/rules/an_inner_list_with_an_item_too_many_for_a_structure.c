struct S { int a; };

void main() {
    S[2] a = { { 1 }, { 2, 3 } }; // error 42
}
