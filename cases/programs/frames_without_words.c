// Functions whose frames have no words call each other, and functions whose frames have words; one of these calls them in a loop.
//> out 0x202 0x0000000C
//> out 0x202 0x00000007
//> out 0x202 0x00000028
//> out 0x202 0x00000018
//> out 0x202 0x00007693
//> halted
int twice(int x) { return x + x; }
int four_times(int x) { return twice(twice(x)); }
int down(int n) { if (n == 0) return 7; return down(n - 1); }
int sum(int n) { int s = 0; int i; for (i = 0; i < n; i++) s = s + four_times(i); return s; }
int through(int n) { return twice(sum(n)); }
int held(int n) { int[4] a; int i; for (i = 0; i < 4; i++) a[i] = through(i) + n; return a[3] * 1000 + a[2] * 100 + a[1] * 10 + a[0]; }
void main() { port_out(GPU_ClearColor, four_times(3)); port_out(GPU_ClearColor, down(20)); port_out(GPU_ClearColor, sum(5)); port_out(GPU_ClearColor, through(3)); port_out(GPU_ClearColor, held(5)); }
