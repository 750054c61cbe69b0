#include "math.h"
int abs; // error 41

void main() { }
