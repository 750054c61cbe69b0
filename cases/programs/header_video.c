// The screen, textures and regions by the header video.h.
//> out 0x202 0xFF0000FF
//> out 0x200 0x00000010
//> out 0x205 0x00000002
//> out 0x206 0x00000003
//> out 0x203 0xFFFFFFFF
//> out 0x204 0x00000021
//> out 0x207 0x00000280
//> out 0x208 0x00000168
//> out 0x20C 0x00000001
//> out 0x20D 0x00000002
//> out 0x20E 0x0000001E
//> out 0x20F 0x00000028
//> out 0x210 0x00000005
//> out 0x211 0x00000006
//> out 0x200 0x00000011
//> out 0x207 0xFFFFFFFF
//> out 0x208 0x00000007
//> out 0x200 0x00000011
//> out 0x202 0xFF000000
//> out 0x204 0x00000020
//> out 0x204 0x00000022
//> halted
#include "video.h"
void main()
{
    clear_screen(color_red);
    select_texture(2);
    select_region(3);
    set_multiply_color(color_white);
    set_blending_mode(blending_add);
    set_drawing_point(screen_width, screen_height);
    define_region(1, 2, 30, 40, 5, 6);
    draw_region();
    draw_region_at(-1, 7);
    port_out(GPU_ClearColor, color_black);
    set_blending_mode(blending_alpha);
    set_blending_mode(blending_subtract);
}
