#include "video.h"
#include "input.h"
#include "time.h"

void main(void) {
    int x = 100;
    select_texture(0);
    select_region(0);
    define_region(0, 0, 31, 31, 0, 0);
    select_gamepad(0);
    while (true) {
        clear_screen(color_black);
        if (gamepad_left() > 0) x -= 2;
        if (gamepad_right() > 0) x += 2;
        draw_region_at(x, 100);
        end_frame();
    }
}
