struct S { int a; };
struct T { int a; };

void main() {
    S s;
    T t;
    s = t; // error 42
}
