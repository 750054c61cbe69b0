// Parameters beyond the registers.
//> out 0x202 0xFFFFFAAB
//> halted
int f(int a, int b, int c, int d, int e, int g, int h, int i, int j, int k, int l, int m) { return a - b + c - d + e - g + h - i + j - k + l - m; }
void main() { port_out(GPU_ClearColor, f(1, 2, 4, 8, 16, 32, 64, 128, 256, 512, 1024, 2048)); }
