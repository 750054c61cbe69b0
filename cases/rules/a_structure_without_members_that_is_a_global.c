int S;
struct S; // error 41

void main() { }
