union S { int a; };
struct S; // error 41

void main() { }
