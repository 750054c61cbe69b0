struct S { int a; };

void main() {
    S s;
    s - s; // error 42
}
