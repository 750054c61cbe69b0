// An array is sorted.
//> out 0x202 0x00000001
//> out 0x202 0x00000002
//> out 0x202 0x00000003
//> out 0x202 0x00000004
//> out 0x202 0x00000005
//> out 0x202 0x00000007
//> out 0x202 0x00000008
//> out 0x202 0x00000009
//> halted
int[8] t = { 5, 2, 8, 1, 9, 3, 7, 4 };
void main() { int i; int j; for (i = 0; i < 8; i++) for (j = 0; j + 1 < 8; j++) if (t[j] > t[j + 1]) { int h = t[j]; t[j] = t[j + 1]; t[j + 1] = h; } for (i = 0; i < 8; i++) port_out(GPU_ClearColor, t[i]); }
