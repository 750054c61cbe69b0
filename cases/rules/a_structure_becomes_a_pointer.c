struct S { int a; };

void main() {
    int* p;
    S s;
    p = s; // error 42
}
