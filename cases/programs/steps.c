// A prefix step gives the new value, a postfix step the old one.
//> out 0x202 0x00000005
//> out 0x202 0x00000006
//> out 0x202 0x00000007
//> out 0x202 0x00000007
//> out 0x202 0x00000005
//> halted
void main() { int i = 5; port_out(GPU_ClearColor, i++); port_out(GPU_ClearColor, i); port_out(GPU_ClearColor, ++i); port_out(GPU_ClearColor, i--); port_out(GPU_ClearColor, --i); }
