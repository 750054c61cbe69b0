struct S { int a; };
int give() {
    S s;
    return s; // error 42
}

void main() { }
