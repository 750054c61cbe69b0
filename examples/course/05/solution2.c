// The middle of so many pictures is the middle of the screen.
#include "examples/course/pictures.c"

void draw_in_the_middle(int n, int count, int y)
{
    int x = (screen_width - 20 * count) / 2;
    for (int i = 0; i < count; i++) draw_picture(n, x + 20 * i, y, color_white);
}

void main()
{
    define_pictures();
    clear_screen(0xFF603010);
    for (int count = 1; count <= 10; count++) draw_in_the_middle(0, count, 40 + 20 * count);
}
