// A division by zero is fault 6, and nothing follows.
//b 9
//> out 514 1
//> fault 6
void main() { int z = 0; port_out(GPU_ClearColor, 1); port_out(GPU_ClearColor, 1 / z); port_out(GPU_ClearColor, 2); }
