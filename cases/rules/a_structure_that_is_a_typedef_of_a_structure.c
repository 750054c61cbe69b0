struct T { int a; };
typedef T S;
struct S { int a; }; // error 41

void main() { }
