// A function calls itself.
//> out 0x202 0x00000003
//> halted
int f(int n) { if (n == 0) return 0; return f(n - 1) + 1; }
void main() { port_out(GPU_ClearColor, f(3)); }
