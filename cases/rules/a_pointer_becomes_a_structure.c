struct S { int a; };

void main() {
    S s;
    int* p;
    s = p; // error 42
}
