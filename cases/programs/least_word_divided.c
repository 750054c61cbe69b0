// The least word divided by -1 is itself, with the remainder 0.
//> out 0x202 0x80000000
//> out 0x202 0x00000000
//> halted
void main() { int x = 0x80000000; port_out(GPU_ClearColor, x / -1); port_out(GPU_ClearColor, x % -1); }
