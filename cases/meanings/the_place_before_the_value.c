// The place of an assignment comes before its value.
//b 9
//> out 514 1
//> halted
void main() { int[3] a; int i = 0; a[i++] = i; port_out(GPU_ClearColor, a[0]); }
