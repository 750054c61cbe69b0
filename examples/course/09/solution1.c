// A third state: START stops the ball, and lets it go on.
#include "examples/course/pictures.c"
#include "examples/text/text.c"
#include "audio.h"
#include "input.h"
#include "time.h"

enum State { title, playing, paused };

State state = playing;
int x = 0, y = 172, dx = 5;

void main()
{
    define_pictures();
    define_font(1);
    while (true)
    {
        clear_screen(0xFF301008);
        bool pressed = gamepad_button_start() == 1;
        switch (state)
        {
            case playing:
                x += dx;
                if (x < 0 || x > screen_width - 16) dx = -dx;
                if (pressed) state = paused;
                break;
            case paused:
                draw_text_centred("PAUSED", 100, color_white);
                if (pressed) state = playing;
        }
        select_texture(0);
        draw_picture(1, x, y, 0xFF80C0FF);
        end_frame();
    }
}
