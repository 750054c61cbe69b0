// The colour of a place: red grows from left to right, green from above to below.
#include "examples/course/pictures.c"

int color_of(int column, int row)
{
    return color_black + column * 255 / 29 + row * 255 / 14 * 256;
}

void main()
{
    define_pictures();
    clear_screen(color_black);
    for (int row = 0; row < 15; row++)
        for (int column = 0; column < 30; column++) draw_picture(0, 20 + 20 * column, 30 + 20 * row, color_of(column, row));
}
