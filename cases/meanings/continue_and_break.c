// Continue does the step, break does not.
//b 9
//> out 514 0
//> out 514 2
//> halted
void main() { for (int i = 0; i < 5; i++) { if (i == 1) continue; if (i == 3) break; port_out(GPU_ClearColor, i); } }
