// A default that stands amid the labels is taken where no label is equal, and falls through.
//> out 0x202 0x0000004E
//> out 0x202 0x0000000A
//> out 0x202 0x00000007
//> out 0x202 0x00000008
//> out 0x202 0x0000004E
//> out 0x202 0x0000000A
//> halted
int f(int k) { switch (k) { case 1: return 10; case 2: case 3: k += 5; break; default: k = 77; case 9: k++; } return k; }
void main() { int i; for (i = 0; i < 5; i++) port_out(GPU_ClearColor, f(i)); port_out(GPU_ClearColor, f(9)); }
