struct T { int a; };
typedef T T; // error 41

void main() { }
