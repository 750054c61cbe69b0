void f(int a);
void f(int* a); // error 42

void main() { }
