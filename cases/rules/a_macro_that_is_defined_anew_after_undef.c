#define A 1
#undef A
#define A 2

int[A == 2] a;

void main() { }
