// The card by the header memcard.h.
//< 1
//c zeros
//> in 0x600 0x00000001
//> out 0x202 0x00000002
//> out 0x202 0x00000003
//> halted
#include "memcard.h"
void main() { int[3] a = { 1, 2, 3 }; int[3] b; if (card_is_connected()) { card_write_data(a, 10, 3); card_read_data(b, 11, 2); port_out(GPU_ClearColor, b[0]); port_out(GPU_ClearColor, b[1]); } }
