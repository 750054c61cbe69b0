struct S { int a; } s; // error 30

void main() { }
