// A break leaves the innermost, a continue the innermost loop.
//> out 0x202 0x0000086A
//> halted
void main() { int s = 0; for (int i = 0; i < 6; i++) { switch (i) { case 1: continue; case 2: break; case 4: s += 100; for (int j = 0; j < 5; j++) { if (j == 2) break; s += 1000; } default: s += 1; } s += 10; } port_out(GPU_ClearColor, s); }
