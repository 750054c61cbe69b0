// A quotient is rounded toward 0, and a remainder has the sign of the dividend.
//> out 0x202 0xFFFFFFFD
//> out 0x202 0xFFFFFFFF
//> out 0x202 0xFFFFFFFD
//> out 0x202 0x00000001
//> halted
void main() { int a = -7; int b = 2; port_out(GPU_ClearColor, a / b); port_out(GPU_ClearColor, a % b); port_out(GPU_ClearColor, 7 / -b); port_out(GPU_ClearColor, 7 % -b); }
