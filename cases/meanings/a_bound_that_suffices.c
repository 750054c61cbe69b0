// Calls nest to their bound.
//b 5
//> out 514 3
//> halted
int f(int n) { if (n == 0) return 0; return f(n - 1) + 1; }
void main() { port_out(GPU_ClearColor, f(3)); }
