
#include "gone.h"
