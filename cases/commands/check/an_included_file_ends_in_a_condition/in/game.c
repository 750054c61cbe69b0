#include "inner.h"
#endif

void main() { }
