// A remainder by 0 faults as a division does.
//> fault 6 at 0x
void main() { int z = 0; port_out(GPU_ClearColor, 1 % z); }
