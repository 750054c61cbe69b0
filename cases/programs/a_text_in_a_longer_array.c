// The elements behind a text are 0.
//> out 0x202 0x00000062
//> out 0x202 0x00000000
//> out 0x202 0x00000000
//> halted
void main() { int[6] a = "ab"; port_out(GPU_ClearColor, a[1]); port_out(GPU_ClearColor, a[2]); port_out(GPU_ClearColor, a[5]); }
