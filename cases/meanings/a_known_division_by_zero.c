// A division whose words are known, the second one 0, is fault 6, though nothing reads what it makes.
//b 9
//> out 514 1
//> fault 6
void main() { port_out(GPU_ClearColor, 1); int z = 0; int x = 1 / z; port_out(GPU_ClearColor, 2); }
