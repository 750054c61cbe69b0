// A pointer to a text reads its bytes and its 0.
//> out 0x202 0x00000068
//> out 0x202 0x00000069
//> out 0x202 0x00000002
//> halted
void main() { int* p = "hi"; int n = 0; while (p[n]) n++; port_out(GPU_ClearColor, p[0]); port_out(GPU_ClearColor, *(p + 1)); port_out(GPU_ClearColor, n); }
