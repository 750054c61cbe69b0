struct S { int a; };

void main() {
    S t;
    &(t = t).a; // error 43
}
