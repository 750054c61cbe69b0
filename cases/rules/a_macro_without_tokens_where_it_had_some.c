#define A 1
#define A // error 26

void main() { }
