// Half of the ball: a region may be any part of the texture.
#include "video.h"

void main()
{
    clear_screen(0xFF603010);
    select_texture(0);
    select_region(0);
    define_region(16, 0, 23, 15, 16, 0);
    draw_region_at(312, 172);
}
