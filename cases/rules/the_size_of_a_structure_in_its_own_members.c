struct S { int[sizeof(S)] a; }; // error 47

void main() { }
