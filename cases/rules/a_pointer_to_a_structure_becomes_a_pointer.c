struct S { int a; };

void main() {
    int* p;
    S* sp;
    p = sp; // error 42
}
