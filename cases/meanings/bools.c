// What is not 0 becomes 1 in a bool.
//b 9
//> out 514 1
//> out 514 1
//> out 514 0
//> halted
void main() { bool b = 7; port_out(GPU_ClearColor, b); b += 1; port_out(GPU_ClearColor, b); port_out(GPU_ClearColor, (bool) 0); }
