// Filling an array with a text takes of the bound.
//b 3
//> out of bound
void main() { int[4] a = "abc"; port_out(GPU_ClearColor, a[2]); }
