void S();
struct S { int a; }; // error 41

void main() { }
