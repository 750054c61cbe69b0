// A clock: seconds and frames.
#include "examples/text/text.c"
#include "time.h"

void main()
{
    define_font(0);
    while (true)
    {
        int frames = get_frame_counter();
        clear_screen(0xFF301008);
        draw_text("SECONDS", 260, 160, color_white);
        draw_number_right(frames / 60, 340, 160, 0xFF40FFFF);
        draw_text("FRAMES", 260, 172, color_white);
        draw_number_right(frames, 340, 172, 0xFF40FFFF);
        end_frame();
    }
}
