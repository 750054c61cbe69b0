// Faster while the button A is down.
#include "video.h"
#include "input.h"
#include "time.h"

void main()
{
    int x = 312;
    int y = 172;
    select_texture(0);
    define_region(16, 0, 31, 15, 16, 0);
    while (true)
    {
        int speed = 3;
        if (gamepad_button_a() > 0) speed = 8;
        if (gamepad_left() > 0) x -= speed;
        if (gamepad_right() > 0) x += speed;
        if (gamepad_up() > 0) y -= speed;
        if (gamepad_down() > 0) y += speed;
        clear_screen(0xFF603010);
        draw_region_at(x, y);
        end_frame();
    }
}
