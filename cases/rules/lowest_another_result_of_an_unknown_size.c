struct A;
int f();
A f(); // error 42

void main() { }
