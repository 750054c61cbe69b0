// Twice as fast.
#include "video.h"
#include "time.h"

void main()
{
    int red = 0;
    while (true)
    {
        clear_screen(color_black + red);
        red = red + 8;
        if (red > 255) red = 0;
        end_frame();
    }
}
