void f(int[3] a); // error 42

void main() { }
