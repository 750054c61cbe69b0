union S { int a; };
union S { int b; }; // error 41

void main() { }
