#include "video.h"
#include "audio.h"
#include "input.h"
#include "time.h"
#include "math.h"
#include "memcard.h"
#include "string.h"
#include "misc.h"

void main() { }
