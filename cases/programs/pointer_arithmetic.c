// Pointers are stepped and told apart by elements.
//> out 0x202 0x00000014
//> out 0x202 0x00000002
//> out 0x202 0x00000001
//> out 0x202 0x00000003
//> out 0x202 0x00000001
//> out 0x202 0x00000001
//> halted
struct S { int x; int y; };
void main() { S[4] s; int i; for (i = 0; i < 4; i++) { s[i].x = i; s[i].y = 10 * i; } S* p = s; p += 2; port_out(GPU_ClearColor, p->y); port_out(GPU_ClearColor, p - s); port_out(GPU_ClearColor, (p - 1)->x); port_out(GPU_ClearColor, p[1].x); port_out(GPU_ClearColor, p > s); port_out(GPU_ClearColor, &s[3] - p); }
