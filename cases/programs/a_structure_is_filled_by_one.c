// A structure takes the value of another of its type; words that have none are not asked for.
//> out 0x202 0x00000001
//> out 0x202 0x00000005
//> out 0x202 0x00000009
//> halted
struct Q { int a; int b; };
void main() { Q x; x.a = 1; x.b = 5; Q y = x; x.a = 9; port_out(GPU_ClearColor, y.a); port_out(GPU_ClearColor, y.b); port_out(GPU_ClearColor, x.a); }
