#include "video.h"

void main() { }
