struct S { int a; };

void main() {
    void* w;
    S s;
    w = s; // error 42
}
