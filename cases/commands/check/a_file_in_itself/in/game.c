#include "a.h"
void main() { }
