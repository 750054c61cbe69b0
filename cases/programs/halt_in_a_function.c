// A halt ends the program wherever it stands.
//> out 0x202 0x00000000
//> out 0x202 0x00000001
//> out 0x202 0x00000002
//> halted
void f(int n) { port_out(GPU_ClearColor, n); if (n == 2) halt(); }
void main() { int i; for (i = 0; i < 9; i++) f(i); }
