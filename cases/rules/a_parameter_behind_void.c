void f(void, int a) { } // error 30

void main() { }
