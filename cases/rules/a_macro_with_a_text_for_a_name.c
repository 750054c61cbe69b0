#define A b
#define A "b" // error 26

void main() { }
