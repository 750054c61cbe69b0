#define A 1
#define A 1 + 1 // error 26

void main() { }
