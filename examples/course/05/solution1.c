// A column, from above to below.
#include "examples/course/pictures.c"

void draw_column(int n, int count, int x, int y)
{
    for (int i = 0; i < count; i++) draw_picture(n, x, y + 20 * i, color_white);
}

void main()
{
    define_pictures();
    clear_screen(0xFF603010);
    draw_column(0, 10, 100, 60);
    draw_column(1, 5, 140, 60);
}
