int f();
void f() { } // error 42

void main() { }
