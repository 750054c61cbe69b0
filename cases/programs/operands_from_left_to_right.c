// The left operand is evaluated first.
//< 5 7
//> in 0x402 0x00000005
//> in 0x403 0x00000007
//> out 0x207 0xFFFFFFFE
//> halted
void main() { port_out(GPU_DrawingPointX, port_in(INP_GamepadLeft) - port_in(INP_GamepadRight)); }
