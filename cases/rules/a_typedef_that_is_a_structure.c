struct T { int a; };
typedef int T; // error 41

void main() { }
