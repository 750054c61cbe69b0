// A pointer into a block that has ended strays.
//b 9
//> stray 25 26
void main() { int* p; { int x = 1; p = &x; } port_out(GPU_ClearColor, *p); }
