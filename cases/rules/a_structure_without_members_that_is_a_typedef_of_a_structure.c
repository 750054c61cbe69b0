struct T { int a; };
typedef T S;
struct S; // error 41

void main() { }
