void f() { }

#include "inner.h"

// nothing stands behind it
