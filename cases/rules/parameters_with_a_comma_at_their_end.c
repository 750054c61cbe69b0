void f(int a,) { } // error 30

void main() { }
