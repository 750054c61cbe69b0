struct S { int a; };
struct S { int a; }; // error 41

void main() { }
