#include "\xff.h" // error 20

void main() { }
