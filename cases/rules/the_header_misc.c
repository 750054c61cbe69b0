#include "misc.h"

void main() { }
