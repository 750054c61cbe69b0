void f(int a);
void f(int a, int b) { } // error 42

void main() { }
