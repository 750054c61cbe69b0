// An answer and a character are added by a function, then a global is counted down.
//< 5
//> in 0x402 0x00000005
//> out 0x202 0x00000046
//> out 0x202 0x00000000
//> halted
int g = 7;
int sum(int a, int b) { return a + b; }
void main() { int x = port_in(INP_GamepadLeft); int* t = "A"; port_out(GPU_ClearColor, sum(x, *t)); int k = g; while (k) k = k - 1; port_out(GPU_ClearColor, k); }
