struct S { int f(); }; // error 30

void main() { }
