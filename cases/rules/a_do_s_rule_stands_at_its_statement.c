struct S { int a; };

void main() {
    S s;
    do // error 42
        ;
    while (s);
}
