// What a function does to a structure that it was passed, its caller does not see.
//> out 0x202 0x0000000A
//> out 0x202 0x0000000A
//> out 0x202 0x00000001
//> halted
struct P { int x; int[3] a; };
int sum(P p) { int s = p.x + p.a[0] + p.a[1] + p.a[2]; p.x = 100; p.a[1] = 100; return s; }
void main() { P q = { 1, { 2, 3, 4 } }; port_out(GPU_ClearColor, sum(q)); port_out(GPU_ClearColor, sum(q)); port_out(GPU_ClearColor, q.x); }
