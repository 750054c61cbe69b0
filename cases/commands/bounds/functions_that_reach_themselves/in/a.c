int f(int n) { if (n == 0) return 0; return f(n - 1) + 1; }
int even(int n);
int odd(int n) { if (n == 0) return 0; return even(n - 1); }
int even(int n) { if (n == 0) return 1; return odd(n - 1); }
void main() { port_out(GPU_ClearColor, f(3) + odd(3)); }
