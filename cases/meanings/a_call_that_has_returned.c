// A pointer into a call that has returned strays.
//b 9
//> stray 25 28
int* f() { int x = 1; return &x; }
void main() { port_out(GPU_ClearColor, *f()); }
