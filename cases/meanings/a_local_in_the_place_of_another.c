// A local is never one that has ended, wherever it lies.
//b 9
//> out 514 2
//> stray 38 39
void main() { int* p; { int x = 1; p = &x; } { int y = 2; port_out(GPU_ClearColor, y); port_out(GPU_ClearColor, *p); } }
