// The last call that is nested has no bound left.
//b 4
//> out of bound
int f(int n) { if (n == 0) return 0; return f(n - 1) + 1; }
void main() { port_out(GPU_ClearColor, f(3)); }
