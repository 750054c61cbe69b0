void f(void a) { } // error 30

void main() { }
