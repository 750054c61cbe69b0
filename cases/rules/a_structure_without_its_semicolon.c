struct S { int a; }
int b; // error 30

void main() { }
