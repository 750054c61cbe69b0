struct S { int a; };

void main() {
    S s;
    for (; s; )
        y; // error 40
}
