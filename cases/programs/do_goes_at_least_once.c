// The test of a do stands behind its body; a continue goes to it.
//> out 0x202 0x00000064
//> halted
void main() { int i = 9; do { i++; if (i < 12) continue; i = 100; } while (i < 12); port_out(GPU_ClearColor, i); }
