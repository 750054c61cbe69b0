void f(int a, int[3] a); // error 41

void main() { }
