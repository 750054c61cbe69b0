// NULL is false and any other pointer true.
//> out 0x202 0x0000044D
//> halted
int g;
int* f(bool b) { if (b) return &g; return NULL; }
void main() { int n = 0; if (f(true)) n += 1; if (f(false)) n += 10; if (!f(false)) n += 100; while (f(n < 1000)) n += 500; port_out(GPU_ClearColor, n); }
