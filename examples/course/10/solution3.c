// Two stars at once: an array of them, and a pointer to the one that is moved.
#include "examples/course/pictures.c"
#include "examples/text/text.c"
#include "audio.h"
#include "input.h"
#include "time.h"
#include "math.h"
#include "misc.h"
#include "memcard.h"

struct Star { int x, y; };

Star[2] sky;
int basket = 312, caught, best;
bool is_playing;

void drop(Star* s, int above)
{
    s->x = rand() % (screen_width - 16);
    s->y = -above;
}

void move_star(Star* s)
{
    s->y += 3 + caught / 4;
    if (s->y > 315 && abs(s->x - basket) < 20)
    {
        caught++;
        play_sound(0);
        drop(s, 16);
    }
    if (s->y < screen_height) return;
    is_playing = false;
    play_sound(1);
    best = max(best, caught);
    if (card_is_connected()) card_write_data(&best, 0, 1);
}

void main()
{
    define_pictures();
    define_font(1);
    if (card_is_connected()) card_read_data(&best, 0, 1);
    while (true)
    {
        if (gamepad_left() > 0) basket = max(basket - 8, 0);
        if (gamepad_right() > 0) basket = min(basket + 8, screen_width - 16);
        for (int n = 0; n < 2 && is_playing; n++) move_star(&sky[n]);
        if (!is_playing && gamepad_button_start() == 1)
        {
            is_playing = true;
            caught = 0;
            drop(&sky[0], 16);
            drop(&sky[1], 180);
        }
        clear_screen(0xFF301008);
        select_texture(0);
        for (int n = 0; n < 2 && is_playing; n++) draw_picture(2, sky[n].x, sky[n].y, 0xFF40FFFF);
        draw_picture(3, basket, 330, color_white);
        draw_number(caught, 10, 10, color_white);
        draw_number_right(best, 630, 10, 0xFF40FFFF);
        if (!is_playing) draw_text_centred("PRESS START", 170, color_white);
        end_frame();
    }
}
