// An unwritten local strays where it is read.
//b 9
//> stray 12 12
void main() { int x; port_out(GPU_ClearColor, x); }
