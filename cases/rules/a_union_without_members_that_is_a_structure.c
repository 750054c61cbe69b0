struct S;
union S; // error 41

void main() { }
