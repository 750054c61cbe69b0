// A character is its number.
//> out 0x202 0x00000041
//> out 0x202 0x0000000A
//> out 0x202 0x00000037
//> halted
void main() { port_out(GPU_ClearColor, 'A'); port_out(GPU_ClearColor, '\n'); port_out(GPU_ClearColor, '0' + 7); }
