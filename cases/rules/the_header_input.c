#include "input.h"

void main() { }
