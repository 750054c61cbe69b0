int n = 3;
struct T { int[n] a; }; // error 48

void main() { }
