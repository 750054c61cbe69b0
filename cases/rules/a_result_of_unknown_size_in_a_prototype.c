struct A;
A f(); // error 47

void main() { }
