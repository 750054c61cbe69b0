// An output: the call of main, the statement, and two expressions.
//b 8
//u 4
//> out 514 3
//> halted
void main() { port_out(GPU_ClearColor, 3); }
