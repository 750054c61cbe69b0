// Up and down again: the step changes its sign at both ends.
#include "video.h"
#include "time.h"

void main()
{
    int red = 0;
    int step = 5;
    while (true)
    {
        clear_screen(color_black + red);
        red = red + step;
        if (red == 0) step = 5;
        if (red == 255) step = -5;
        end_frame();
    }
}
