// A call of a function that leaves by its end does what it does.
//> out 0x202 0x00000006
//> halted
int n;
void f(int k) { if (k > 3) return; n += k; f(k + 1); }
void main() { f(0); port_out(GPU_ClearColor, n); }
