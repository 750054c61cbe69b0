#include "b.c"
void main() { port_out(GPU_ClearColor, wrong()); }
