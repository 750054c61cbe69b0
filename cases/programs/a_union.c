// Members of a union share their words.
//> out 0x202 0x00000005
//> out 0x202 0x00000009
//> out 0x202 0x00000006
//> halted
union U { int i; int[2] w; };
void main() { U u; u.w[0] = 5; u.w[1] = 6; port_out(GPU_ClearColor, u.i); u.i = 9; port_out(GPU_ClearColor, u.w[0]); port_out(GPU_ClearColor, u.w[1]); }
