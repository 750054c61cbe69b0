struct S { int a; };

void main() {
    S s;
    while (s)
        1 = 2; // error 43
}
