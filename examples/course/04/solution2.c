// It stays on the screen.
#include "video.h"
#include "input.h"
#include "time.h"

void main()
{
    int x = 312;
    int y = 172;
    select_texture(0);
    define_region(16, 0, 31, 15, 16, 0);
    while (true)
    {
        if (gamepad_left() > 0 && x > 0) x -= 3;
        if (gamepad_right() > 0 && x < screen_width - 16) x += 3;
        if (gamepad_up() > 0 && y > 0) y -= 3;
        if (gamepad_down() > 0 && y < screen_height - 16) y += 3;
        clear_screen(0xFF603010);
        draw_region_at(x, y);
        end_frame();
    }
}
