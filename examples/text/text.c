// Texts and numbers on the screen, with a font of the 95 printable characters, each of 5 by 7 points in a field of 6 by 8.
// `font.picture` is its picture, of which `examples/picture` makes a texture. Call `define_font` once with the number of that texture, before any text.
// A drawing leaves the font's texture selected, and the colour that was given for it.
#include "video.h"

#define character_width 6
#define character_height 8

int font_texture;

// The font's regions are those of the characters' codes, 32 to 126, of the texture of that number.
void define_font(int texture)
{
    font_texture = texture;
    select_texture(texture);
    for (int code = ' '; code <= '~'; code++)
    {
        int x = (code - ' ') % 16 * character_width, y = (code - ' ') / 16 * character_height;
        select_region(code);
        define_region(x, y, x + 4, y + 6, x, y);
    }
}

// The character of that code; another than 32 to 126 is a gap.
void draw_character(int code, int x, int y)
{
    if (code <= ' ' || code > '~') return;
    select_region(code);
    draw_region_at(x, y);
}

// The text from (x, y) on to the right, in that colour; a '\n' goes on below its first character.
void draw_text(int* text, int x, int y, int color)
{
    select_texture(font_texture);
    set_multiply_color(color);
    int at = x;
    for (int n = 0; text[n] != 0; n++)
    {
        if (text[n] == '\n')
        {
            at = x;
            y += character_height + 2;
        }
        else
        {
            draw_character(text[n], at, y);
            at += character_width;
        }
    }
    set_multiply_color(color_white);
}

// The points that a text of one line takes from left to right.
int text_width(int* text)
{
    int count = 0;
    while (text[count] != 0) count++;
    return count * character_width;
}

// The text whose right end is before x, in that colour.
void draw_text_right(int* text, int x, int y, int color)
{
    draw_text(text, x - text_width(text), y, color);
}

// The text in the middle between the screen's sides, in that colour.
void draw_text_centred(int* text, int y, int color)
{
    draw_text(text, (screen_width - text_width(text)) / 2, y, color);
}

// The number in decimal digits, with a `-` where it is below 0; its right end is before x. The digits go from the last to the first.
void draw_number_right(int number, int x, int y, int color)
{
    select_texture(font_texture);
    set_multiply_color(color);
    int left = number;
    do
    {
        int digit = left % 10;
        // the remainder has the sign of the number, so the least number needs no case of its own
        if (digit < 0) digit = -digit;
        x -= character_width;
        draw_character('0' + digit, x, y);
        left /= 10;
    } while (left != 0);
    if (number < 0) draw_character('-', x - character_width, y);
    set_multiply_color(color_white);
}

// The characters that a number takes, its `-` among them.
int number_length(int number)
{
    int length = 1;
    if (number < 0) length = 2;
    while (number / 10 != 0)
    {
        number /= 10;
        length++;
    }
    return length;
}

// The number from (x, y) on to the right, in that colour.
void draw_number(int number, int x, int y, int color)
{
    draw_number_right(number, x + number_length(number) * character_width, y, color);
}
