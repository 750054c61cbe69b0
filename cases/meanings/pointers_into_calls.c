// A pointer to a local of the call before.
//b 9
//> out 514 6
//> halted
void inc(int* p, int n) { int k = n; if (n > 0) inc(&k, n - 1); *p = *p + k; }
void main() { int s = 0; inc(&s, 3); port_out(GPU_ClearColor, s); }
