struct S { int a; };

void main() {
    a = 1; // error 40
}
