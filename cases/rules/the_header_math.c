#include "math.h"

void main() { }
