// Enumerators count from 0 or on from the one before.
//> out 0x202 0x00000000
//> out 0x202 0x0000000A
//> out 0x202 0x0000000B
//> halted
enum E { a, b = 10, c };
int f(E e) { return e; }
void main() { E x = c; port_out(GPU_ClearColor, a); port_out(GPU_ClearColor, b); port_out(GPU_ClearColor, f(x)); }
