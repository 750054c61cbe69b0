void f(int a);
void f() { } // error 42

void main() { }
