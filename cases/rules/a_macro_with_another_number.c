#define A 1
#define A 2 // error 26

void main() { }
