// A colour that grows brighter, one step with each frame.
#include "video.h"
#include "time.h"

void main()
{
    int red = 0;
    while (true)
    {
        clear_screen(color_black + red);
        red = red + 4;
        if (red > 255) red = 0;
        end_frame();
    }
}
