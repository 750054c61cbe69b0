struct A;
struct S { A a; }; // error 47

void main() { }
