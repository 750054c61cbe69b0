struct S { int a; };
S s;
int a = s.a; // error 48

void main() { }
