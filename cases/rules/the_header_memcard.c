#include "memcard.h"

void main() { }
