// A wait is a port operation.
//> wait
//> out 0x202 0x00000001
//> wait
//> halted
void main() { wait_frame(); port_out(GPU_ClearColor, 1); wait_frame(); }
