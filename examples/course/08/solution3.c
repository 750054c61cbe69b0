// A table: the numbers from 1 to 10 with their squares, right-aligned.
#include "examples/text/text.c"

void main()
{
    define_font(0);
    clear_screen(0xFF301008);
    draw_text_right("n", 300, 60, 0xFF909090);
    draw_text_right("n * n", 360, 60, 0xFF909090);
    for (int n = 1; n <= 10; n++)
    {
        draw_number_right(n, 300, 60 + 14 * n, color_white);
        draw_number_right(n * n, 360, 60 + 14 * n, 0xFF40FFFF);
    }
}
