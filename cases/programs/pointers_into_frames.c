// Each call has locals of its own, which others may be told of.
//> out 0x202 0x00000006
//> halted
void inc(int* p, int n) { int k = n; if (n > 0) inc(&k, n - 1); *p = *p + k; }
void main() { int s = 0; inc(&s, 3); port_out(GPU_ClearColor, s); }
