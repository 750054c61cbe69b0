#include "video.h" "input.h" // error 20

void main() { }
