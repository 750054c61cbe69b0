struct S { int a; };
union U { int a; S s; };
U give() {
    S s;
    return s; // error 42
}

void main() { }
