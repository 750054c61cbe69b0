// Sizes in words.
//> out 0x202 0x00000004
//> out 0x202 0x00000004
//> out 0x202 0x0000000C
//> out 0x202 0x00000001
//> halted
struct Q { int a; int[3] b; };
union U { int i; Q q; };
void main() { port_out(GPU_ClearColor, sizeof(Q)); port_out(GPU_ClearColor, sizeof(U)); port_out(GPU_ClearColor, sizeof(int[3][4])); port_out(GPU_ClearColor, sizeof(Q*)); }
