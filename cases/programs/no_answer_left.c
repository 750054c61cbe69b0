// A run starves where a port has no answer left.
//< 5
//> in 0x402 0x00000005
//> starved
void main() { port_out(GPU_DrawingPointX, port_in(INP_GamepadLeft) - port_in(INP_GamepadRight)); }
