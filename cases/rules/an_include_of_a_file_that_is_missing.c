#include "gone.h" // error 21

void main() { }
