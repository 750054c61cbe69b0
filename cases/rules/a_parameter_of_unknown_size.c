struct A;
void f(A a) { } // error 47

void main() { }
