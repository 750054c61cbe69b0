struct S { int a; };

void main() {
    S s;
    for (; s; ) ; // error 42
}
