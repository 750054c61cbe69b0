struct A;
void f(int a, A a); // error 41

void main() { }
