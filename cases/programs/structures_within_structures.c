// Members of members, assigned in a chain, and of a value that stands at no place.
//> out 0x202 0x00000007
//> out 0x202 0x00000008
//> out 0x202 0x00000015
//> out 0x202 0x00000007
//> out 0x202 0x00000005
//> halted
struct S { int x; int y; };
struct T { S s; int k; };
T make(int n) { T t = { { n, n + 1 }, n + 2 }; return t; }
void main() { S a; S b = { 7, 8 }; S c; a = c = b; T t = make(3); t.s = a; port_out(GPU_ClearColor, a.x); port_out(GPU_ClearColor, c.y); port_out(GPU_ClearColor, make(20).s.y); port_out(GPU_ClearColor, t.s.x); port_out(GPU_ClearColor, t.k); }
