// An inner name hides an outer one; a loop makes its locals anew.
//> out 0x202 0x00000002
//> out 0x202 0x00000005
//> out 0x202 0x00000006
//> out 0x202 0x00000001
//> halted
void main() { int x = 1; { int x = 2; port_out(GPU_ClearColor, x); } for (int i = 0; i < 2; i++) { int y = i; y += 5; port_out(GPU_ClearColor, y); } port_out(GPU_ClearColor, x); }
