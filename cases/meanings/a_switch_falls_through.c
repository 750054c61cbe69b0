// A switch falls through to the break.
//b 9
//> out 514 6
//> halted
void main() { int x = 0; switch (2) { case 1: x += 1; case 2: x += 2; case 3: x += 4; break; default: x += 8; } port_out(GPU_ClearColor, x); }
