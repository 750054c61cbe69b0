// Values that wait for others.
//> out 0x202 0x000001E4
//> halted
int f(int n) { return n + 1; }
void main() { int a = 3; port_out(GPU_ClearColor, ((a + 1) * (a + 2) - (a + 3) * f(a + 4)) * ((a + 5) - f(f(a + 6) * 2)) + f(1) * f(2) * f(3) * f(4)); }
