// Elements without an item are 0; members of a structure without one stay as they are.
//> out 0x202 0x00000002
//> out 0x202 0x00000000
//> out 0x202 0x00000000
//> out 0x202 0x00000004
//> out 0x202 0x00000000
//> halted
struct S { int x; int y; };
S g = { 4 };
void main() { int[5] a = { 1, 2 }; port_out(GPU_ClearColor, a[1]); port_out(GPU_ClearColor, a[2]); port_out(GPU_ClearColor, a[4]); port_out(GPU_ClearColor, g.x); port_out(GPU_ClearColor, g.y); }
