// An arm goes on into the next one up to a break.
//> out 0x202 0x00000006
//> halted
void main() { int s = 0; switch (2) { case 1: s += 1; case 2: s += 2; case 3: s += 4; break; default: s += 8; } port_out(GPU_ClearColor, s); }
