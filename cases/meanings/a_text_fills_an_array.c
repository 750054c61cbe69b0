// A text fills an array and its end.
//b 9
//> out 514 99
//> out 514 0
//> halted
void main() { int[4] a = "abc"; port_out(GPU_ClearColor, a[2]); port_out(GPU_ClearColor, a[3]); }
