#include "video.h"
#include "video.h"
#include "input.h"

#define NOTHING
#define ONE 1
#define ONE 0x01
#define itself itself
#define there back
#define back there
#undef ONE
#undef ONE
#define ONE 1 // behind a directive may stand a comment
# define TWO ONE + \
    ONE
/* before it, too */ #define THREE 3
#define x + 1
#define xa + 2

#ifdef ONE
int one = ONE;
#else
#error this is not taken
#pragma this is passed over
#include <this too
#else this is passed over
#endif this, too
#ifdef nested
#else
#error neither is this
#endif
#ifndef nested
#error nor this
#endif
#endif

#ifndef ONE
this is no C, but it is tokens
#endif

#ifdef VIDEO_H
int[TWO * THREE - 3] four;
int itself, there, back;
int[0x == 1] zero_and_x; // behind a 0 without digits a word may stand
int[0+1] zero_and_more;
int[0xa == 10] ten;
#else
#endif


void main() {
    there = screen_width;
    back = color_black NOTHING;
}
