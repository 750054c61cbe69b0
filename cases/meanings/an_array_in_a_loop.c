// An array in a loop is made anew in each turn.
//b 9
//> out 514 0
//> out 514 1
//> out 514 2
//> halted
void main() { int i = 0; while (i < 3) { int[2] a; a[0] = i; i++; port_out(GPU_ClearColor, a[0]); } }
