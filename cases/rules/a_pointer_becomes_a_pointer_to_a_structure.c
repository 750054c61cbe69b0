struct S { int a; };

void main() {
    S* sp;
    int* p;
    sp = p; // error 42
}
