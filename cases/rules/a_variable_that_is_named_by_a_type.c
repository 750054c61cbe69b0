struct S { int a; };

void main() {
    int S; // error 30
}
