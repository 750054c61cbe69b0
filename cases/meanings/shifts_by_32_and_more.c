// Counts of shifts: 32 leaves nothing, a negative one goes the other way.
//b 9
//> out 514 0
//> out 514 15
//> out 514 4
//> halted
void main() { port_out(GPU_ClearColor, 1 << 32); port_out(GPU_ClearColor, -1 >> 28); port_out(GPU_ClearColor, 8 << -1); }
