// Words are shifted in zeros; 32 and more shift all out, a count below 0 the other way.
//> out 0x202 0x00000000
//> out 0x202 0x0000000F
//> out 0x202 0x00000004
//> out 0x202 0x80000000
//> halted
void main() { int s = 32; int t = 28; int u = -1; port_out(GPU_ClearColor, 1 << s); port_out(GPU_ClearColor, -1 >> t); port_out(GPU_ClearColor, 8 << u); port_out(GPU_ClearColor, 1 << 31); }
