struct S { int a; };
int S; // error 30

void main() { }
