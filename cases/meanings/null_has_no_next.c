// A null pointer is tested, but not stepped.
//b 9
//> out 514 1
//> stray 26 28
void main() { int* p = NULL; if (p == NULL) port_out(GPU_ClearColor, 1); p = p + 1; }
