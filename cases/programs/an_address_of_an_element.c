// An element is written through its address.
//> out 0x202 0x0000000A
//> out 0x202 0x00000014
//> out 0x202 0x0000001E
//> halted
void main() { int[3] a = { 1, 2, 3 }; int* p = &a[1]; *p = 20; p[1] = 30; *(p - 1) = 10; port_out(GPU_ClearColor, a[0]); port_out(GPU_ClearColor, a[1]); port_out(GPU_ClearColor, a[2]); }
