struct S { int a; };

void main() {
    S a = { 1, 2 }; // error 42
}
