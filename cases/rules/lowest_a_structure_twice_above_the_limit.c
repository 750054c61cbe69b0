struct S { int a; };
struct S { int[4194304] a; int b; }; // error 41

void main() { }
