#include "string.h"

void main() { }
