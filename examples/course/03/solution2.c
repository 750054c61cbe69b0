// Two regions of one texture.
#include "video.h"

void main()
{
    clear_screen(0xFF603010);
    select_texture(0);
    select_region(0);
    define_region(0, 0, 15, 15, 0, 0);
    select_region(1);
    define_region(48, 0, 63, 15, 48, 0);
    select_region(0);
    draw_region_at(200, 172);
    select_region(1);
    draw_region_at(400, 172);
}
