struct S { int a; };
S s;
S t = s; // error 42

void main() { }
