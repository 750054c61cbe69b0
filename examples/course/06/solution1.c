// The farther the darker: the slow ones are far.
#include "examples/course/pictures.c"
#include "time.h"
#include "misc.h"

#define stars 40

int[stars] xs;
int[stars] ys;
int[stars] speeds;
int[4] shades = { 0xFF404040, 0xFF808080, 0xFFC0C0C0, 0xFFFFFFFF };

void main()
{
    define_pictures();
    for (int n = 0; n < stars; n++)
    {
        xs[n] = rand() % screen_width;
        ys[n] = rand() % screen_height;
        speeds[n] = 1 + rand() % 4;
    }
    while (true)
    {
        clear_screen(0xFF301008);
        for (int n = 0; n < stars; n++)
        {
            ys[n] += speeds[n];
            if (ys[n] > screen_height) ys[n] = -16;
            draw_picture(2, xs[n], ys[n], shades[speeds[n] - 1]);
        }
        end_frame();
    }
}
