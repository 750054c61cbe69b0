void f(int a, int a) { } // error 41

void main() { }
