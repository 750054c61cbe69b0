// Past a switch without an equal label and without a default.
//> out 0x202 0x00000003
//> halted
void main() { int s = 3; switch (s) { case 1: s = 100; } port_out(GPU_ClearColor, s); }
