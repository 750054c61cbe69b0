// A read beyond a global strays.
//b 9
//> out 514 0
//> stray 25 28
int[2] g;
void main() { port_out(GPU_ClearColor, g[1]); port_out(GPU_ClearColor, g[2]); }
