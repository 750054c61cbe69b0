// A text is stored in an array with a 0 behind it.
//> out 0x202 0x00000061
//> out 0x202 0x00000063
//> out 0x202 0x00000000
//> halted
void main() { int[4] a = "abc"; port_out(GPU_ClearColor, a[0]); port_out(GPU_ClearColor, a[2]); port_out(GPU_ClearColor, a[3]); }
