int n = 3;
void f(int[n]* a) { } // error 48

void main() { }
