// Pointers into one object have an order; into two they have none.
//b 9
//> out 514 3
//> out 514 1
//> out 514 0
//> stray 54 57
void main() { int[4] a; int* p = a + 3; port_out(GPU_ClearColor, p - a); port_out(GPU_ClearColor, p > a); int b; port_out(GPU_ClearColor, p == &b); port_out(GPU_ClearColor, p < &b); }
