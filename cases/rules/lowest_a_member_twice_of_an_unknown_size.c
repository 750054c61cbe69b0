struct A;
struct S { int a; A a; }; // error 41

void main() { }
