struct A;
int a;
A a; // error 41

void main() { }
