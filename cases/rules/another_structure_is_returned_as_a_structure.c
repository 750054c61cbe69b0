struct S { int a; };
struct T { int a; };
S give() {
    T t;
    return t; // error 42
}

void main() { }
