void f(int[3]* a);
void f(int[4]* a) { } // error 42

void main() { }
