struct S { int a; };

void main() {
    S t;
    (t = t).a = 1; // error 43
}
