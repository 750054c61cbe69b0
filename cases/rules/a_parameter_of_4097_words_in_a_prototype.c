struct Big { int[4097] a; };
void f(Big a); // error 50

void main() { }
