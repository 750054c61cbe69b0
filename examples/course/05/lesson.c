// Functions: what belongs together has a name, and what differs is a parameter.
#include "video.h"

// Region n is the picture n of the texture.
void define_pictures()
{
    select_texture(0);
    for (int n = 0; n < 4; n++)
    {
        select_region(n);
        define_region(16 * n, 0, 16 * n + 15, 15, 16 * n, 0);
    }
}

void draw_picture(int n, int x, int y, int color)
{
    select_region(n);
    set_multiply_color(color);
    draw_region_at(x, y);
}

// So many of a picture side by side; it answers where the next one would stand.
int draw_row(int n, int count, int x, int y)
{
    for (int i = 0; i < count; i++) draw_picture(n, x + 20 * i, y, color_white);
    return x + 20 * count;
}

void main()
{
    define_pictures();
    clear_screen(0xFF603010);
    int x = draw_row(0, 5, 40, 60);
    draw_picture(2, x, 60, 0xFF00FFFF);
    x = draw_row(1, 8, 40, 100);
    draw_picture(2, x, 100, 0xFF00FFFF);
}
