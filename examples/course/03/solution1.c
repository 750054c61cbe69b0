// The star, which is the third picture.
#include "video.h"

void main()
{
    clear_screen(0xFF603010);
    select_texture(0);
    select_region(0);
    define_region(32, 0, 47, 15, 32, 0);
    draw_region_at(312, 172);
}
