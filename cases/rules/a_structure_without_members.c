struct S { }; // error 30

void main() { }
