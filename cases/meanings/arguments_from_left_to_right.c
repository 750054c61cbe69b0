// Arguments are evaluated from left to right.
//b 9
//> out 514 12
//> halted
int f(int a, int b) { return a * 10 + b; }
void main() { int x = 0; port_out(GPU_ClearColor, f(++x, ++x)); }
