#include "video.h"
#include "gone.h"
void main() { }
