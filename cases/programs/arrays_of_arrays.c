// Elements of elements.
//> out 0x202 0x00000000
//> out 0x202 0x00000017
//> out 0x202 0x0000000C
//> halted
void main() { int[3][4] m; int i; int j; for (i = 0; i < 3; i++) for (j = 0; j < 4; j++) m[i][j] = 10 * i + j; port_out(GPU_ClearColor, m[0][0]); port_out(GPU_ClearColor, m[2][3]); port_out(GPU_ClearColor, m[1][2]); }
