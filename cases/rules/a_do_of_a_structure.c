struct S { int a; };

void main() {
    S s;
    do ; while (s); // error 42
}
