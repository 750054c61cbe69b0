// Texts and numbers: stars fall, a basket catches them, and they are counted.
#include "examples/course/pictures.c"
#include "examples/text/text.c"
#include "input.h"
#include "time.h"
#include "math.h"
#include "misc.h"

struct Star { int x, y; };

Star star;
int basket = 300;
int caught, missed;

void drop()
{
    star.x = rand() % (screen_width - 16);
    star.y = -16;
}

void move_star()
{
    star.y += 4;
    if (star.y > 320 && star.y < 340 && abs(star.x - basket) < 16)
    {
        caught++;
        drop();
    }
    if (star.y > screen_height)
    {
        missed++;
        drop();
    }
}

void main()
{
    define_pictures();
    define_font(1);
    drop();
    while (true)
    {
        if (gamepad_left() > 0) basket = max(basket - 6, 0);
        if (gamepad_right() > 0) basket = min(basket + 6, screen_width - 16);
        move_star();
        clear_screen(0xFF301008);
        select_texture(0);
        draw_picture(2, star.x, star.y, 0xFF40FFFF);
        draw_picture(3, basket, 330, color_white);
        draw_text("CAUGHT", 10, 10, color_white);
        draw_number(caught, 55, 10, 0xFF40FFFF);
        draw_text_right("MISSED", 600, 10, color_white);
        draw_number_right(missed, 625, 10, 0xFF4040FF);
        end_frame();
    }
}
