// Green in place of red: a step of green is 256.
#include "video.h"
#include "time.h"

void main()
{
    int green = 0;
    while (true)
    {
        clear_screen(color_black + green * 256);
        green = green + 4;
        if (green > 255) green = 0;
        end_frame();
    }
}
