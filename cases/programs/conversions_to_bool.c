// What becomes a bool is 0 or 1.
//> out 0x202 0x00000001
//> out 0x202 0x00000001
//> out 0x202 0x00000001
//> out 0x202 0x00000001
//> out 0x202 0x00000000
//> out 0x202 0x00000001
//> out 0x202 0x00000000
//> halted
bool f(int n) { return n; }
int g(bool b) { return b; }
void main() { bool b = 7; int i = b; bool c = (bool)0x100; port_out(GPU_ClearColor, i); port_out(GPU_ClearColor, f(-3)); port_out(GPU_ClearColor, g(5)); port_out(GPU_ClearColor, c); port_out(GPU_ClearColor, !5); port_out(GPU_ClearColor, !!5); port_out(GPU_ClearColor, (bool)0); }
