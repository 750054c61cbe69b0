// A macro stands for its tokens, not for their value.
//> out 0x202 0x00000004
//> halted
#define N 2+1
void main() { port_out(GPU_ClearColor, N*2); }
