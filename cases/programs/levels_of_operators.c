// Products bind closer than sums.
//> out 0x202 0x00000007
//> out 0x202 0x00000003
//> out 0x202 0x00000008
//> out 0x202 0x00000001
//> out 0x202 0x00000005
//> halted
void main() { port_out(GPU_ClearColor, 1 + 2 * 3); port_out(GPU_ClearColor, 10 - 4 - 3); port_out(GPU_ClearColor, 1 << 2 + 1); port_out(GPU_ClearColor, 7 & 3 == 3); port_out(GPU_ClearColor, 1 | 6 ^ 2 & 3); }
