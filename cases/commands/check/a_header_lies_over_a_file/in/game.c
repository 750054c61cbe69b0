#include "math.h"
#include "mine.h"

void main() {
    mine = abs(-1);
}
