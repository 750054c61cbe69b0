// The least word divided by minus 1, and what is left.
//b 9
//> out 514 2147483648
//> out 514 0
//> halted
void main() { int x = 0x80000000; port_out(GPU_ClearColor, x / -1); port_out(GPU_ClearColor, x % -1); }
