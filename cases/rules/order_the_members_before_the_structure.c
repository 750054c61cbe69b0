struct T;
struct S { int a; };
struct S {
    S b;
    T c; // error 47
};

void main() { }
