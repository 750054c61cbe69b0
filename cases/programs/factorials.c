// Products wrap at 2^32.
//> out 0x202 0x00375F00
//> out 0x202 0x02611500
//> out 0x202 0x1C8CFC00
//> out 0x202 0x7328CC00
//> out 0x202 0x4C3B2800
//> halted
int fact(int n) { if (n < 2) return 1; return n * fact(n - 1); }
void main() { int i; for (i = 10; i < 15; i++) port_out(GPU_ClearColor, fact(i)); }
