void f(int a = 1) { } // error 30

void main() { }
