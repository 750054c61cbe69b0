#include "audio.h"

void main() { }
