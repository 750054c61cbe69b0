// Numbers by the header math.h.
//> out 0x202 0x00000005
//> out 0x202 0x00000005
//> out 0x202 0xFFFFFFFF
//> out 0x202 0x00000002
//> halted
#include "math.h"
void main() { port_out(GPU_ClearColor, abs(-5)); port_out(GPU_ClearColor, abs(5)); port_out(GPU_ClearColor, min(-1, 2)); port_out(GPU_ClearColor, max(-1, 2)); }
