// Words by the header misc.h.
//< 12
//> out 0x202 0x00000000
//> out 0x202 0x00000001
//> out 0x202 0x00000007
//> out 0x100 0x00000005
//> in 0x100 0x0000000C
//> out 0x202 0x0000000C
//> halted
#include "misc.h"
void main() { int[4] a; int[4] b; memset(a, 7, 4); memcpy(b, a, 4); port_out(GPU_ClearColor, memcmp(a, b, 4)); b[2] = 9; port_out(GPU_ClearColor, memcmp(a, b, 4) < 0); port_out(GPU_ClearColor, b[1]); srand(5); port_out(GPU_ClearColor, rand()); exit(); port_out(GPU_ClearColor, 99); }
