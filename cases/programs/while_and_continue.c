// A continue goes to the test.
//> out 0x202 0x00000008
//> out 0x202 0x00000013
//> halted
void main() { int i = 0; int s = 0; while (i < 10) { i++; if (i % 3 == 0) continue; if (i == 8) break; s += i; } port_out(GPU_ClearColor, i); port_out(GPU_ClearColor, s); }
