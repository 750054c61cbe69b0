struct S { struct T { int a; } t; }; // error 30

void main() { }
