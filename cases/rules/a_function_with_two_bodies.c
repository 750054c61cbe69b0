void f() { }
void f() { } // error 41

void main() { }
