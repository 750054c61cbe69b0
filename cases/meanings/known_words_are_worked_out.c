// A sum of known words is a word.
//b 20
//> out 514 7
//> halted
void main() { port_out(GPU_ClearColor, 2 * 3 + 1); }
