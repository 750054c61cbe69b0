#include "time.h"

void main() { }
