// Globals begin as they are given, else as 0.
//> out 0x202 0x00000005
//> out 0x202 0x00000000
//> out 0x202 0x00000003
//> out 0x202 0x00000000
//> out 0x202 0x00000001
//> out 0x202 0x00000078
//> halted
int a = 5; int b; int[4] c = { 1, 2, 3 }; bool d = true; int* e = "x";
void main() { port_out(GPU_ClearColor, a); port_out(GPU_ClearColor, b); port_out(GPU_ClearColor, c[2]); port_out(GPU_ClearColor, c[3]); port_out(GPU_ClearColor, d); port_out(GPU_ClearColor, *e); }
