#include "video.h"
#define screen_width 320 // error 26

void main() { }
