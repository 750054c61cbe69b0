// A bool that is stepped stays 0 or 1.
//> out 0x202 0x00000001
//> out 0x202 0x00000001
//> halted
void main() { bool b = false; b++; port_out(GPU_ClearColor, b); b++; port_out(GPU_ClearColor, b); }
