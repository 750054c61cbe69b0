#include "inner.h"

void main() { }
