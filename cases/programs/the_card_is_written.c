// The card is reached by a pointer.
//c zeros
//> out 0x202 0x00000008
//> out 0x202 0x00000000
//> halted
void main() { int* c = card_memory(); *c = 7; c[5] = *c + 1; port_out(GPU_ClearColor, c[5]); port_out(GPU_ClearColor, c[6]); }
