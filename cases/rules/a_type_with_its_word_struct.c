struct S { int a; };

void main() {
    struct S s; // error 30
}
