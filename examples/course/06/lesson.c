// Arrays: many of the same. Stars that fall, each at its own speed.
#include "examples/course/pictures.c"
#include "time.h"
#include "misc.h"

#define stars 40

int[stars] xs;
int[stars] ys;
int[stars] speeds;

void place_stars()
{
    for (int n = 0; n < stars; n++)
    {
        xs[n] = rand() % screen_width;
        ys[n] = rand() % screen_height;
        speeds[n] = 1 + rand() % 4;
    }
}

void move_stars()
{
    for (int n = 0; n < stars; n++)
    {
        ys[n] += speeds[n];
        if (ys[n] > screen_height) ys[n] = -16;
    }
}

void main()
{
    define_pictures();
    place_stars();
    while (true)
    {
        move_stars();
        clear_screen(0xFF301008);
        for (int n = 0; n < stars; n++) draw_picture(2, xs[n], ys[n], 0xFF80FFFF);
        end_frame();
    }
}
