struct A;
typedef A T;
struct S { T a; }; // error 47

void main() { }
