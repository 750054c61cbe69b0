// Functions of lesson 5, for the lessons behind it: region n is the picture n of the texture, and is drawn in a colour.
#include "video.h"

// Region n is the picture n of the texture.
void define_pictures()
{
    select_texture(0);
    for (int n = 0; n < 4; n++)
    {
        select_region(n);
        define_region(16 * n, 0, 16 * n + 15, 15, 16 * n, 0);
    }
}

void draw_picture(int n, int x, int y, int color)
{
    select_region(n);
    set_multiply_color(color);
    draw_region_at(x, y);
}
