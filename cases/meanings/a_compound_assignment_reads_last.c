// A compound assignment reads its place behind its value; steps in front and behind.
//b 9
//> out 514 4
//> out 514 4
//> out 514 4
//> halted
void main() { int x = 5; x += x = 2; port_out(GPU_ClearColor, x); port_out(GPU_ClearColor, x++); port_out(GPU_ClearColor, --x); }
