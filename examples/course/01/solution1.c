// The screen blue: blue stands in the third byte, red in the lowest.
#include "video.h"

void main()
{
    clear_screen(0xFFFF0000);
}
