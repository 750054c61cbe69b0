struct S { int a; };
struct T { S s; };
S s;
T t = { s }; // error 42

void main() { }
