// The product's operands are asked for behind the sum's left one; the third answer is missing.
//b 9
//< 5 7
//> in 1026 5
//> in 1026 7
//> starved
void main() { port_out(GPU_ClearColor, port_in(INP_GamepadLeft) + port_in(INP_GamepadLeft) * port_in(INP_GamepadLeft)); }
