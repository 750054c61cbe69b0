// A division by 0 faults, and what came before stands.
//> out 0x202 0x00000001
//> fault 6 at 0x
void main() { int z = 0; port_out(GPU_ClearColor, 1); port_out(GPU_ClearColor, 1 / z); }
