struct S { int a; };

void main() {
    S a = { { 1 } }; // error 42
}
