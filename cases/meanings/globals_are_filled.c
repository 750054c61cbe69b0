// Globals are filled: items, zeros, a negative number, a text.
//b 9
//> out 514 2
//> out 514 0
//> out 514 4294967293
//> out 514 122
//> halted
int[5] g = {1, 2};
int h = -3;
int* t = "z";
void main() { port_out(GPU_ClearColor, g[1]); port_out(GPU_ClearColor, g[4]); port_out(GPU_ClearColor, h); port_out(GPU_ClearColor, *t); }
