// A function of three statements: the call of main, the output, the call and its argument; the variable, its initialiser, value and cell; the sum; the return.
//b 8
//u 16
//> out 514 5
//> halted
int f(int x) { int y = x; y += 3; return y; }
void main() { port_out(GPU_ClearColor, f(2)); }
