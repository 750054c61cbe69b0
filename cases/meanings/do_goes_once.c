// A do goes at least once.
//b 9
//> out 514 5
//> halted
void main() { int i = 5; do { port_out(GPU_ClearColor, i); i++; } while (i < 3); }
