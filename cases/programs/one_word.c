// A port is given a word.
//> out 0x202 0x000000FF
//> halted
void main() { port_out(GPU_ClearColor, 255); }
