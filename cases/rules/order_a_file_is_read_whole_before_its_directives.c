#include "gone.h"

void main() { }

int a = 4294967296; // error 13
