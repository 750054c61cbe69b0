#define 1 2 // error 20

void main() { }
