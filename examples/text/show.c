// What `text.c` draws: every character, and numbers in colours.
#include "examples/text/text.c"

void main()
{
    define_font(0);
    clear_screen(0xFF402000);
    draw_text_centred("A font of 95 characters", 20, color_white);
    int[17] line;
    for (int row = 0; row < 6; row++)
    {
        for (int column = 0; column < 16; column++) line[column] = ' ' + 16 * row + column;
        line[16] = 0;
        draw_text(line, 272, 50 + 12 * row, 0xFF00FFFF);
    }
    draw_text("left\nand below", 20, 150, 0xFF80FF80);
    draw_text_right("right", 620, 150, 0xFF80FF80);
    draw_number(-2147483648, 20, 200, 0xFF8080FF);
    draw_number(0, 20, 212, 0xFF8080FF);
    draw_number_right(1234567890, 620, 200, 0xFFFF80FF);
    draw_number_right(-7, 620, 212, 0xFFFF80FF);
}
