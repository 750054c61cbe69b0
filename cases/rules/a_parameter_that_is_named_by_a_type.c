typedef int T;
void f(bool T) { } // error 30

void main() { }
