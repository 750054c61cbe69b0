// A function is called before its body, by its prototype.
//> out 0x202 0x00000001
//> out 0x202 0x00000000
//> out 0x202 0x00000000
//> out 0x202 0x00000001
//> halted
bool odd(int n);
bool even(int n) { if (n == 0) return true; return odd(n - 1); }
bool odd(int n) { if (n == 0) return false; return even(n - 1); }
void main() { port_out(GPU_ClearColor, even(10)); port_out(GPU_ClearColor, odd(10)); port_out(GPU_ClearColor, even(7)); port_out(GPU_ClearColor, odd(7)); }
