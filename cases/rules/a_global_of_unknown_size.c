struct A;
A a; // error 47

void main() { }
