int 1;

#include "inner.h"
