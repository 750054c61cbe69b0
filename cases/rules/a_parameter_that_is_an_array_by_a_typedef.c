typedef int[3] T;
void f(T a) { } // error 42

void main() { }
