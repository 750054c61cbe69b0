// An operator and an assignment in one.
//> out 0x202 0x00000012
//> halted
void main() { int a = 20; a += 3; a -= 1; a *= 2; a /= 3; a %= 10; a <<= 3; a >>= 1; a |= 1; a ^= 3; a &= 30; port_out(GPU_ClearColor, a); }
