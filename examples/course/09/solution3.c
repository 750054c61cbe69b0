// A sound that plays in a loop, as music does, until the button B stops its channel.
#include "examples/course/pictures.c"
#include "examples/text/text.c"
#include "audio.h"
#include "input.h"
#include "time.h"

void main()
{
    define_pictures();
    select_sound(0);
    set_sound_loop(1);
    play_sound_in_channel(0, 3);
    while (true)
    {
        if (gamepad_button_b() == 1) stop_channel(3);
        clear_screen(0xFF301008);
        end_frame();
    }
}
