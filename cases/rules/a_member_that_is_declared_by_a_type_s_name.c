typedef int T;
struct S { bool T; }; // error 30

void main() { }
