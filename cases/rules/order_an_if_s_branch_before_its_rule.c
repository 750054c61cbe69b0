struct S { int a; };

void main() {
    S s;
    if (s)
        1 = 2; // error 43
}
