struct S { int a; };
struct T { int a; };
void f(S a);
void f(T a) { } // error 42

void main() { }
