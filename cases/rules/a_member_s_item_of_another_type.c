struct S { int a, b; };

void main() {
    S a = { 1, NULL }; // error 42
}
