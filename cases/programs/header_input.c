// The gamepads by the header input.h.
//< 0 5 1 2 3 4 5 6 7 8 4294967287 3600 4294963696
//> out 0x400 0x00000003
//> in 0x401 0x00000000
//> out 0x202 0x00000000
//> in 0x401 0x00000005
//> out 0x202 0x00000001
//> in 0x402 0x00000001
//> out 0x202 0x00000001
//> in 0x403 0x00000002
//> out 0x202 0x00000002
//> in 0x404 0x00000003
//> out 0x202 0x00000003
//> in 0x405 0x00000004
//> out 0x202 0x00000004
//> in 0x406 0x00000005
//> out 0x202 0x00000005
//> in 0x407 0x00000006
//> out 0x202 0x00000006
//> in 0x408 0x00000007
//> out 0x202 0x00000007
//> in 0x409 0x00000008
//> out 0x202 0x00000008
//> in 0x40A 0xFFFFFFF7
//> out 0x202 0xFFFFFFF7
//> in 0x40B 0x00000E10
//> out 0x202 0x00000E10
//> in 0x40C 0xFFFFF1F0
//> out 0x202 0xFFFFF1F0
//> halted
#include "input.h"
void main()
{
    select_gamepad(3);
    port_out(GPU_ClearColor, gamepad_is_connected());
    port_out(GPU_ClearColor, gamepad_is_connected());
    port_out(GPU_ClearColor, gamepad_left());
    port_out(GPU_ClearColor, gamepad_right());
    port_out(GPU_ClearColor, gamepad_up());
    port_out(GPU_ClearColor, gamepad_down());
    port_out(GPU_ClearColor, gamepad_button_start());
    port_out(GPU_ClearColor, gamepad_button_a());
    port_out(GPU_ClearColor, gamepad_button_b());
    port_out(GPU_ClearColor, gamepad_button_x());
    port_out(GPU_ClearColor, gamepad_button_y());
    port_out(GPU_ClearColor, gamepad_button_l());
    port_out(GPU_ClearColor, gamepad_button_r());
}
