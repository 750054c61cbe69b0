// One step of 16 points with each press: a control that was pressed in this frame counts 1.
#include "video.h"
#include "input.h"
#include "time.h"

void main()
{
    int x = 304;
    int y = 176;
    select_texture(0);
    define_region(16, 0, 31, 15, 16, 0);
    while (true)
    {
        if (gamepad_left() == 1) x -= 16;
        if (gamepad_right() == 1) x += 16;
        if (gamepad_up() == 1) y -= 16;
        if (gamepad_down() == 1) y += 16;
        clear_screen(0xFF603010);
        draw_region_at(x, y);
        end_frame();
    }
}
