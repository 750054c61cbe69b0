struct S { int a; };
union S { int a; }; // error 41

void main() { }
