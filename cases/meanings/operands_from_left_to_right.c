// The left operand is asked for first.
//b 9
//< 5 7
//> in 1026 5
//> in 1027 7
//> out 514 4294967294
//> halted
void main() { port_out(GPU_ClearColor, port_in(INP_GamepadLeft) - port_in(INP_GamepadRight)); }
