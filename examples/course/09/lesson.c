// Sounds, and the states of a game: a title, and playing.
#include "examples/course/pictures.c"
#include "examples/text/text.c"
#include "audio.h"
#include "input.h"
#include "time.h"

enum State { title, playing };
enum Sound { pop, miss };

State state = title;
int x = 0, y = 172, dx = 5;

void show_title()
{
    draw_text_centred("PRESS START", 170, color_white);
    if (gamepad_button_start() == 1) state = playing;
}

void play_on()
{
    x += dx;
    if (x < 0 || x > screen_width - 16)
    {
        dx = -dx;
        play_sound(pop);
    }
    if (gamepad_button_b() == 1)
    {
        play_sound(miss);
        state = title;
    }
    select_texture(0);
    draw_picture(1, x, y, 0xFF80C0FF);
}

void main()
{
    define_pictures();
    define_font(1);
    while (true)
    {
        clear_screen(0xFF301008);
        switch (state)
        {
            case title:
                show_title();
                break;
            case playing:
                play_on();
        }
        end_frame();
    }
}
