void f(int a, int b);
void f(int a) { } // error 42

void main() { }
