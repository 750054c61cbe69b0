#include "inner.h"
#include "second.h"
#include "third.h"

void main() { }
// last