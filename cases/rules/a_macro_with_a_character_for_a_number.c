#define A 65
#define A 'A' // error 26

void main() { }
