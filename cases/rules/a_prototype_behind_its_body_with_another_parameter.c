void f(int a) { }
void f(bool a); // error 42

void main() { }
