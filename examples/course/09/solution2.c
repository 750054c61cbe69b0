// A sound for each direction that is pressed.
#include "examples/course/pictures.c"
#include "examples/text/text.c"
#include "audio.h"
#include "input.h"
#include "time.h"

void main()
{
    define_pictures();
    while (true)
    {
        if (gamepad_left() == 1 || gamepad_right() == 1) play_sound(0);
        if (gamepad_up() == 1 || gamepad_down() == 1 || gamepad_button_start() == 1) play_sound(1);
        clear_screen(0xFF301008);
        end_frame();
    }
}
