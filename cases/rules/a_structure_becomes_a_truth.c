struct S { int a; };

void main() {
    bool b;
    S s;
    b = s; // error 42
}
