// The right side is evaluated only where the left does not tell.
//b 9
//< 5 7
//> in 1026 5
//> out 514 5
//> halted
void main() { int x = 0; if (x && port_in(INP_GamepadLeft)) x = 1; if (!x || port_in(INP_GamepadLeft)) port_out(GPU_ClearColor, port_in(INP_GamepadLeft)); }
