// A red square that gamepad 0 moves, as square.asm does.
#include "video.h"
#include "input.h"
#include "time.h"

void main()
{
    int x = 304;
    int y = 164;
    select_texture(0);
    select_region(0);
    define_region(0, 0, 31, 31, 0, 0);
    while (true)
    {
        clear_screen(color_black);
        if (gamepad_left() > 0) x -= 2;
        if (gamepad_right() > 0) x += 2;
        if (gamepad_up() > 0) y -= 2;
        if (gamepad_down() > 0) y += 2;
        draw_region_at(x, y);
        end_frame();
    }
}
