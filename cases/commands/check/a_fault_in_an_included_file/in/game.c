#include "part.h"
void main() { f(); }
