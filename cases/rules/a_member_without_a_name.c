struct S { int; }; // error 30

void main() { }
