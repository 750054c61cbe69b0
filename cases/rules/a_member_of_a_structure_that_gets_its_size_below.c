struct A;
struct S {
    A a; // error 47
};
struct A { int b; };

void main() { }
