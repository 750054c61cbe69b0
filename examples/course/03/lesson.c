// A picture on the screen: the texture has four of 16 by 16 points side by side, and a region is one of them.
#include "video.h"

void main()
{
    clear_screen(0xFF603010);
    select_texture(0);
    select_region(0);
    define_region(16, 0, 31, 15, 16, 0);
    draw_region_at(100, 80);
    draw_region_at(200, 120);
    set_multiply_color(0xFF40A0FF);
    draw_region_at(300, 160);
}
