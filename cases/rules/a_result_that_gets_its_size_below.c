struct A;
A f(); // error 47
struct A { int b; };

void main() { }
