void f(a) { } // error 30

void main() { }
