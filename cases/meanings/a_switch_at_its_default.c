// A switch without a match begins at its default.
//b 9
//> out 514 8
//> halted
void main() { int x = 0; switch (9) { case 1: x += 1; case 2: x += 2; case 3: x += 4; break; default: x += 8; } port_out(GPU_ClearColor, x); }
