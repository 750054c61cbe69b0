struct S { int a; };

void main() {
    S s;
    int a = s; // error 42
}
