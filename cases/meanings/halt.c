// Nothing follows a halt.
//b 9
//> halted
void main() { halt(); port_out(GPU_ClearColor, 1); }
