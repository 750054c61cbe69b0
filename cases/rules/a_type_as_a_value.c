struct S { int a; };

void main() {
    int a = S; // error 30
}
