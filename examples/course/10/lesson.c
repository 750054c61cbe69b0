// A whole game: stars fall faster and faster, a basket catches them, and the best score is kept on the memory card.
#include "examples/course/pictures.c"
#include "examples/text/text.c"
#include "audio.h"
#include "input.h"
#include "time.h"
#include "math.h"
#include "misc.h"
#include "memcard.h"

struct Star { int x, y; };

Star star;
int basket = 312, caught, best;
bool is_playing;

void drop()
{
    star.x = rand() % (screen_width - 16);
    star.y = -16;
}

void move_star()
{
    star.y += 3 + caught / 2;
    if (star.y > 315 && abs(star.x - basket) < 20)
    {
        caught++;
        play_sound(0);
        drop();
    }
    if (star.y < screen_height) return;
    is_playing = false;
    play_sound(1);
    best = max(best, caught);
    if (card_is_connected()) card_write_data(&best, 0, 1);
}

void main()
{
    define_pictures();
    define_font(1);
    if (card_is_connected()) card_read_data(&best, 0, 1);
    while (true)
    {
        if (gamepad_left() > 0) basket = max(basket - 8, 0);
        if (gamepad_right() > 0) basket = min(basket + 8, screen_width - 16);
        if (is_playing) move_star();
        else if (gamepad_button_start() == 1) { is_playing = true; caught = 0; drop(); }
        clear_screen(0xFF301008);
        select_texture(0);
        if (is_playing) draw_picture(2, star.x, star.y, 0xFF40FFFF);
        draw_picture(3, basket, 330, color_white);
        draw_number(caught, 10, 10, color_white);
        draw_number_right(best, 630, 10, 0xFF40FFFF);
        if (!is_playing) draw_text_centred("PRESS START", 170, color_white);
        end_frame();
    }
}
