struct S { int a; };

void main() {
    S s;
    int a = port_in(s.a); // error 45
}
